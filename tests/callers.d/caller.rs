// A caller who keeps everything that he is answered. With `--cfg drops_return` he drops what return says, and so with the others.
#![deny(unused_must_use)]
#![allow(unexpected_cfgs)]
use loafheron::host::{Answer, Buffers, Fate, Host, ModuleAnswer};

fn caller(host: &mut Host, memory: &mut [u8]) -> ([Answer; 2], [ModuleAnswer; 5], Fate, usize) {
    #[cfg(drops_begin)]
    host.begin(&[0; 128]);
    #[cfg(drops_ingress)]
    host.ingress(b"loop/take", b"");
    #[cfg(drops_write)]
    host.write(memory, 8);
    #[cfg(drops_read)]
    host.read(memory, 8);
    #[cfg(drops_open)]
    host.open(memory, 8);
    #[cfg(drops_next)]
    host.next(memory, 8);
    #[cfg(drops_close)]
    host.close(memory, 8);
    #[cfg(drops_return)]
    host.module_return(0);
    #[cfg(drops_look_up)]
    host.look_up(1);
    let answers = [host.begin(&[0; 128]), host.ingress(b"loop/take", b"")];
    let to_the_module = [
        host.write(memory, 8),
        host.read(memory, 8),
        host.open(memory, 8),
        host.next(memory, 8),
        host.close(memory, 8),
    ];
    (answers, to_the_module, host.module_return(0), host.look_up(1).len())
}

fn main() {
    let buffers = Buffers::new(vec![0; 65_536], vec![0; 65_536], b"modules\t1\n".to_vec());
    #[cfg(drops_mount)]
    Host::mount(buffers.clone(), 0);
    let mut host = Host::mount(buffers, 0).ok().unwrap();
    println!("{:?}", caller(&mut host, &mut [0; 4_096]));
    #[cfg(drops_buffers)]
    host.into_buffers();
    #[cfg(not(drops_buffers))]
    println!("{}", host.into_buffers().1);
}
