fn main() {
    link::archives(&["term_tests"]);
}
