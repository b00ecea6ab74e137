fn main() {
	assemble::assemble(true);
}
