//! Loafheron from Rust.
//!
//! [`host`] owns the buffers of a box and calls the proved host in the archive; [`raw`] is the archive as C has it; `model` is a twin
//! of the host, written from the requirements (document 01, changed by 02) and docs/DECISIONS.md; [`differ`] runs both on the same calls
//! and compares every answer, every field of the state and every lent byte.
//!
//! # What the promises build on
//!
//! Promises 2 and 3 (docs/PROMISES.md) speak of a box whose card, index, staging, manifest and state nobody else changes, and in which each
//! state is used once, the last one. [`host::Host`] keeps to that: it owns all five and hands none out before its end. Who calls
//! [`raw`] himself, in unsafe code, keeps to it himself. What each function answers, and what it leaves in each lent byte, is proved
//! for every state and every byte, whoever made them.
//!
//! # The index
//!
//! Beside the card a table is lent with the offset of each record, so that a page or a look-up costs what its records cost, however large
//! the card is. [`host::Buffers::new`] makes one that is always long enough; what becomes of a shorter one is told at [`host::Host`].
//!
//! # What a call costs
//!
//! A weave has the units that begin gives it; a module call that would cost more than is left is -6. What each costs, and the manifest's
//! line `charge`, which names one of two rules for writes, is told at [`host::Host`].
//!
//! # Which field was it?
//!
//! A module call that is refused with -5 says which field of its argument record failed first: [`host::Refusal`] has the code and
//! the field, and prints both, as in `-5 (out_ptr)`. Begin, ingress and return are no module calls; they have their code alone.
//!
//! # Two bands, one box
//!
//! On a sound card with its index, as a mounted [`host::Host`] has both, what a module call answers, and what it leaves of memory, staging
//! and state, does not depend on what is in an event that the module is not granted `in`; nor does the outcome of its return. Only how
//! many events there are, their numbers, and how many bytes all of them have can show (docs/PROMISES.md, 4).
//! [`host::Host::look_up`] and [`host::Host::used`] are not for modules: they show any event. How long a call takes is not promised.
//!
//! # On which machines
//!
//! The archive is for x86-64, where it is linked. On other machines it runs in a program of its own, by an emulator, which is told its
//! calls through a pipe: there this crate is for trying the archive, not for use.
//!
//! ```
//! use loafheron::host::{Buffers, Fate, Field, Host, Refusal};
//!
//! let manifest = b"modules\t1\ngrant\t1\tout\tloop/take\n".to_vec();
//! let buffers = Buffers::new(vec![0; 65_536], vec![0; 65_536], manifest);
//! let mut host = Host::mount(buffers, 0).unwrap_or_else(|refused| panic!("{}", refused.code));
//! let mut weave = [0; 128];
//! weave[24] = 100; // res_max
//! assert_eq!(host.begin(&weave), Ok(0));
//! assert_eq!(host.ingress(b"loop/take", b"verse"), Ok(0));
//! assert_eq!(host.used().len(), 0); // staged is not saved
//! let memory = [0; 64]; // of a module whose argument record is all 0: its topic is empty
//! assert_eq!(host.write(&memory, 8), Err(Refusal::Bad(Field::Topic)));
//! assert_eq!(host.write(&memory, 9).unwrap_err().to_string(), "-5 (the arguments' address)");
//! assert_eq!(host.module_return(0), Fate::Committed { events: 1, bytes: 152 });
//! assert_eq!(&host.look_up(1)[144..149], b"verse");
//! ```
pub mod differ;
pub mod host;
#[cfg(feature = "unowned")]
pub mod lent;
#[cfg(not(feature = "unowned"))]
mod lent;
mod model;
pub mod raw;
