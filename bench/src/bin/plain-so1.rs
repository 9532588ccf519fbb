use cevoluneth_bench::{server, store::InPlace};

fn main() -> std::io::Result<()> {
    server::main::<InPlace>()
}
