use cevoluneth_bench::{server, store::Beside};

fn main() -> std::io::Result<()> {
    server::main::<Beside>()
}
