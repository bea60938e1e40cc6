// A caller who holds a state himself, uses it twice and lends another card with it. Only with the feature `unowned` may he.
use loafheron::lent::{Buffers, Caller, Here};

fn main() {
    let archive = Here::default();
    let mut b = Buffers::new(vec![0; 65_536], vec![0; 65_536], b"modules\t1\n".to_vec());
    let old = archive.mount(&mut b, 0).state;
    let begun = archive.begin(old, &mut b, &[0; 128]).code;
    b.card = vec![1; 65_536];
    let again = archive.begin(old, &mut b, &[0; 128]).code;
    println!("{begun} {again}");
}
