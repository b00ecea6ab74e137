fn main() {
	assemble::assemble(false);
}
