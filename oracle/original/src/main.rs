fn main() -> std::io::Result<()> {
    original::answer::keep_panics();
    original::serve::serve()
}
