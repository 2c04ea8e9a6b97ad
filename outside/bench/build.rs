fn main() {
    link::archives(&["c_call", "judge_tests"]);
}
