//! The archive through its safe owner: document 01's own session, the edges of documents 01 and 02, and arguments that are wrong.
use loafheron::host::{self, Buffers, Fate, Field, Host, Refusal};

const MANIFEST: &[u8] = b"modules\t1\ngrant\t1\tout\tloop/take\ngrant\t1\tin\tloop/take\n";

fn buffers() -> Buffers {
    Buffers::new(vec![0; 65_536], vec![0; 65_536], MANIFEST.to_vec())
}

fn weave(res_max: u64, time: u64) -> Vec<u8> {
    let mut args = vec![0; 128];
    args[24..32].copy_from_slice(&res_max.to_le_bytes());
    args[48..56].copy_from_slice(&time.to_le_bytes());
    args
}

fn put(memory: &mut [u8], at: usize, words: &[u64]) {
    for (i, w) in words.iter().enumerate() {
        memory[at + 8 * i..at + 8 * i + 8].copy_from_slice(&w.to_le_bytes());
    }
}

/// A raw write whose record lies at 8, the topic at 64, the payload at 128.
fn write(host: &mut Host, memory: &mut [u8], topic: &[u8], payload: &[u8]) -> host::ModuleAnswer {
    memory[64..64 + topic.len()].copy_from_slice(topic);
    memory[128..128 + payload.len()].copy_from_slice(payload);
    put(memory, 8, &[64, topic.len() as u64, 128, payload.len() as u64, 1]);
    host.write(memory, 8)
}

/// A write of a string: its value lies at 128, its bytes at 160.
fn sing(host: &mut Host, memory: &mut [u8], words: &[u8]) -> host::ModuleAnswer {
    memory[64..73].copy_from_slice(b"loop/take");
    memory[160..160 + words.len()].copy_from_slice(words);
    put(memory, 128, &[5, 160, words.len() as u64, 0]);
    put(memory, 8, &[64, 9, 128, 32, 2]);
    host.write(memory, 8)
}

/// A read of all that is staged with this topic, as far as 1,000 bytes go.
fn read(host: &mut Host, memory: &mut [u8], topic: &[u8]) -> host::ModuleAnswer {
    memory[64..64 + topic.len()].copy_from_slice(topic);
    put(memory, 8, &[64, topic.len() as u64, 0, 128, 1_000]);
    host.read(memory, 8)
}

fn open(host: &mut Host, memory: &mut [u8], filter: &[u8]) -> host::ModuleAnswer {
    memory[64..64 + filter.len()].copy_from_slice(filter);
    put(memory, 8, &[64, filter.len() as u64, 1, 9, 9, 0]);
    host.open(memory, 8)
}

fn next(host: &mut Host, memory: &mut [u8], handle: u64, cap: u64) -> host::ModuleAnswer {
    put(memory, 8, &[handle, 8, cap]);
    host.next(memory, 8)
}

fn close(host: &mut Host, memory: &mut [u8], handle: u64) -> host::ModuleAnswer {
    put(memory, 8, &[handle]);
    host.close(memory, 8)
}

fn session(units: u64) -> (Host, Vec<u8>) {
    let mut memory = vec![0; 65_536];
    let mut host = Host::mount(buffers(), 0).ok().unwrap();
    assert_eq!(host.begin(&weave(100, 5_000)), Ok(0));
    assert_eq!(write(&mut host, &mut memory, b"loop/take", b"verse"), Ok(0));
    assert_eq!(host.module_return(0), Fate::Committed { events: 1, bytes: 152 });
    assert_eq!(host.begin(&weave(units, 6_000)), Ok(0));
    assert_eq!(write(&mut host, &mut memory, b"loop/take", b"chorus"), Ok(0));
    assert_eq!(open(&mut host, &mut memory, b"loop/"), Ok(1));
    (host, memory)
}

#[test]
fn document_01s_session_runs_out_of_budget() {
    let (mut host, mut memory) = session(30);
    assert_eq!(next(&mut host, &mut memory, 1, 152), Err(Refusal::Code(-6)));
    assert_eq!(next(&mut host, &mut memory, 1, 152), Err(Refusal::Code(-6)));
    assert_eq!(host.module_return(0), Fate::Discarded(-6));
    assert_eq!(host.used().len(), 152);
    assert_eq!(&host.look_up(1)[144..149], b"verse");
    assert!(host.look_up(2).is_empty());
}

#[test]
fn document_01s_session_with_60_units() {
    let (mut host, mut memory) = session(60);
    assert_eq!(&host.look_up(2)[144..150], b"chorus");
    assert_eq!(next(&mut host, &mut memory, 1, 152), Ok(152));
    assert_eq!(&memory[8 + 128..8 + 137], b"loop/take");
    assert_eq!(&memory[8 + 144..8 + 149], b"verse");
    assert_eq!(next(&mut host, &mut memory, 1, 152), Ok(0));
    assert_eq!(host.module_return(0), Fate::Committed { events: 1, bytes: 152 });
    assert_eq!(host.used().len(), 304);
    let (buffers, used) = host.into_buffers();
    assert_eq!(used, 304);
    let again = Host::mount(buffers, used).ok().unwrap();
    assert_eq!(again.state().next, 3);
}

/// P5 and P6, and sums that wrap: an address or a length that is wrong gets -5 and its field, and the box goes on.
#[test]
fn a_wrong_pointer_or_length_gets_its_code_and_the_box_goes_on() {
    let (mut host, mut memory) = session(1_000);
    memory.truncate(65_535);
    memory.push(0);
    for at in [0, 4, 9, 65_504, 65_536, u64::MAX, u64::MAX - 7, 1 << 63] {
        assert_eq!(host.write(&memory, at), Err(Refusal::Bad(Field::Record)), "record at {at}");
    }
    for (ptr, len) in
        [(65_529, 8), (0, 1), (65_536, 1), (u64::MAX, 2), (u64::MAX - 7, 8), (8, u64::MAX), (1 << 63, 1 << 63)]
    {
        memory[64..73].copy_from_slice(b"loop/take");
        put(&mut memory, 8, &[64, 9, ptr, len, 1]);
        assert_eq!(host.write(&memory, 8), Err(Refusal::Bad(Field::Data)), "payload ({ptr}, {len})");
        put(&mut memory, 8, &[ptr, len, 128, 1, 1]);
        assert_eq!(host.write(&memory, 8), Err(Refusal::Bad(Field::Topic)), "topic ({ptr}, {len})");
    }
    for (ptr, len) in [(65_536, 0), (65_528, 8), (0, 0)] {
        put(&mut memory, 8, &[64, 9, ptr, len, 1]);
        assert_eq!(host.write(&memory, 8), Ok(0), "payload ({ptr}, {len})");
    }
    assert_eq!(host.module_return(0), Fate::Committed { events: 4, bytes: 152 + 152 + 144 + 144 });
}

#[test]
fn a_wrong_memory_gets_its_code_and_the_box_goes_on() {
    let (mut host, mut memory) = session(1_000);
    let mut large = vec![0; 1_048_577];
    assert_eq!(host.read(&mut large, 8), Err(Refusal::Bad(Field::Before)));
    assert_eq!(host.read(&mut [], 8), Err(Refusal::Bad(Field::Record)));
    assert_eq!(next(&mut host, &mut memory, 1, 152), Ok(152));
}

/// 02, A2: 127 is refused wherever a topic is named. 126 is good, and so is C2 80, which is no ASCII; 128 alone is no UTF-8.
#[test]
fn byte_127_is_refused_wherever_a_topic_is_named() {
    for (text, good) in
        [(&b"loop/\x7e"[..], true), (b"loop/\x7f", false), (b"loop/\x80", false), (b"loop/\xC2\x80", true)]
    {
        let answer = |value| if good { Ok(value) } else { Err(-5) };
        let module = |value| answer(value).map_err(|_| Refusal::Bad(Field::Topic));
        let manifest = [MANIFEST, b"grant\t1\tin\t", text, b"\ngrant\t1\tout\t", text, b"\n"].concat();
        let mounted = Host::mount(Buffers { manifest, ..buffers() }, 0);
        assert_eq!(mounted.as_ref().map(|_| 0).map_err(|refused| refused.code), answer(0), "a grant of {text:?}");
        let mut host = mounted.unwrap_or_else(|_| Host::mount(buffers(), 0).ok().unwrap());
        let mut memory = vec![0; 65_536];
        assert_eq!(host.begin(&weave(1_000, 0)), Ok(0));
        assert_eq!(host.ingress(text, b""), answer(0), "ingress to {text:?}");
        assert_eq!(write(&mut host, &mut memory, text, b"verse"), module(0), "a write to {text:?}");
        assert_eq!(read(&mut host, &mut memory, text), module(136 + 144), "a read of {text:?}");
        assert_eq!(open(&mut host, &mut memory, text), module(1), "a filter {text:?}");
        let (events, bytes) = if good { (2, 136 + 144) } else { (0, 0) };
        assert_eq!(host.module_return(0), Fate::Committed { events, bytes });
    }
}

/// Alone, and among the bytes that are looked at eight at a time.
#[test]
fn byte_127_is_refused_at_every_place_of_a_topic() {
    let mut host = Host::mount(buffers(), 0).ok().unwrap();
    assert_eq!(host.begin(&weave(0, 0)), Ok(0));
    for len in 1..=25 {
        for at in 0..len {
            let mut topic = vec![b'a'; len];
            for (byte, answer) in [(126, Ok(0)), (127, Err(-5)), (128, Err(-5))] {
                topic[at] = byte;
                assert_eq!(host.ingress(&topic, b""), answer, "{topic:?}");
            }
        }
    }
}

/// "Cards that already hold such a topic still mount; no grant can name it": look-up shows it, no list has it.
#[test]
fn a_card_with_byte_127_mounts_and_look_up_alone_shows_it() {
    let (mut host, _) = session(60);
    assert_eq!(host.module_return(0), Fate::Committed { events: 1, bytes: 152 });
    let (mut buffers, used) = host.into_buffers();
    // the topic of the first record, as the rule of 01 let it be written
    buffers.card[128..137].copy_from_slice(b"loop\x7ftake");
    let mut host = Host::mount(buffers, used).ok().unwrap();
    assert_eq!(host.state().next, 3);
    assert_eq!(&host.look_up(1)[128..137], b"loop\x7ftake");
    assert_eq!(&host.look_up(1)[144..149], b"verse");
    let mut memory = vec![0; 65_536];
    assert_eq!(host.begin(&weave(1_000, 0)), Ok(0));
    for (handle, filter) in [(1, &b""[..]), (2, b"loop")] {
        assert_eq!(open(&mut host, &mut memory, filter), Ok(handle));
        assert_eq!(next(&mut host, &mut memory, handle, 1_000), Ok(152));
        assert_eq!(&memory[8 + 144..8 + 150], b"chorus");
        assert_eq!(next(&mut host, &mut memory, handle, 1_000), Ok(0));
    }
    assert_eq!(open(&mut host, &mut memory, b"loop\x7f"), Err(Refusal::Bad(Field::Topic)));
    assert_eq!(host.module_return(0), Fate::Committed { events: 0, bytes: 0 });
}

/// 02, A3: a string is looked at eight bytes at a time, and is UTF-8 just where Rust says so. Bytes that begin no character, characters, and these less
/// their last byte, at every place of 0 to 25 letters; a character in front moves them.
#[test]
fn a_string_is_utf8_or_refused_wherever_a_character_stands() {
    let [e, note, clef] = ["é", "♪", "𝄞"].map(str::as_bytes);
    let odd = [&b""[..], b"\x80", b"\xFF", &e[..1], e, &note[..2], note, &clef[..3], clef];
    let mut host = Host::mount(buffers(), 0).ok().unwrap();
    let mut memory = vec![0; 65_536];
    for front in [&e[..0], e, note] {
        for (len, at) in (0..=25).flat_map(|len| (0..=len).map(move |at| (len, at))) {
            let letters = vec![b'a'; len];
            assert_eq!(host.begin(&weave(1_000, 0)), Ok(0));
            for odd in odd {
                let words = [front, &letters[..at], odd, &letters[at..]].concat();
                let answer = std::str::from_utf8(&words).map(|_| 0).map_err(|_| Refusal::Code(-7));
                assert_eq!(sing(&mut host, &mut memory, &words), answer, "{words:x?}");
            }
            assert_eq!(host.module_return(2), Fate::Discarded(-5));
        }
    }
}

/// The manifest with this text behind its first line.
fn charging(text: &[u8]) -> Buffers {
    let (one, grants) = MANIFEST.split_at(b"modules\t1\n".len());
    Buffers { manifest: [one, text, grants].concat(), ..buffers() }
}

fn mounted(buffers: Buffers) -> Result<Host, i64> {
    Host::mount(buffers, 0).map_err(|refused| refused.code)
}

/// The line in every form that 02 does not name. (The twin and the differential run have lists of their own: each is written from 02.)
const BAD_CHARGES: [&[u8]; 26] = [
    // other numbers
    b"charge\t0\n",
    b"charge\t3\n",
    b"charge\t10\n",
    b"charge\t21\n",
    b"charge\t01\n",
    b"charge\t\n",
    b"charge\t+1\n",
    b"charge\t-1\n",
    b"charge\t1 \n",
    b"charge\t 1\n",
    b"charge\t1\r\n",
    b"charge\t\xD9\xA1\n",
    // 2^64 + 1
    b"charge\t18446744073709551617\n",
    // other fields
    b"charge\n",
    b"charge\t1\t\n",
    b"charge\t2\t1\n",
    b"charge\t\t1\n",
    // other words
    b"charge 1\n",
    b"Charge\t1\n",
    b"CHARGE\t2\n",
    b" charge\t1\n",
    b"charges\t1\n",
    b"charg\t1\n",
    // twice, or behind an empty line
    b"charge\t1\ncharge\t1\n",
    b"charge\t1\ncharge\t2\n",
    b"\ncharge\t1\n",
];

/// 02, A11: line two may be `charge` and 1 or 2. "A bad line is a bad manifest."
#[test]
fn a_charge_line_of_another_form_is_refused() {
    for good in [&b""[..], b"charge\t1\n", b"charge\t2\n"] {
        assert!(mounted(charging(good)).is_ok(), "{good:?}");
    }
    for bad in BAD_CHARGES {
        assert_eq!(mounted(charging(bad)).err(), Some(-5), "{:?}", String::from_utf8_lossy(bad));
    }
}

#[test]
fn a_charge_line_in_another_place_is_refused() {
    let grant = "grant\t1\tin\ta\n";
    for line in ["charge\t1\n", "charge\t2\n"] {
        for bad in [
            line.to_string(),
            format!("{line}modules\t1\n"),
            format!("modules\t1\n{grant}{line}"),
            format!("modules\t1\n{grant}{line}{grant}"),
            format!("modules\t1\n{line}{grant}{line}"),
            // the last line left open
            format!("modules\t1\n{}", line.trim_end()),
        ] {
            let manifest = bad.clone().into_bytes();
            assert_eq!(mounted(Buffers { manifest, ..buffers() }).err(), Some(-5), "{bad:?}");
        }
    }
}

/// 64 grants and the line; and a manifest of 65,536 bytes with it.
#[test]
fn a_charge_line_is_no_grant_and_counts_among_the_bytes() {
    let grants = |n: usize| ["charge\t2\n", &"grant\t1\tin\ta\n".repeat(n)].concat();
    // two more stand in MANIFEST
    assert!(mounted(charging(grants(62).as_bytes())).is_ok());
    assert_eq!(mounted(charging(grants(63).as_bytes())).err(), Some(-5));
    let long = ["charge\t2\n", &format!("grant\t1\tin\t{}\n", "t".repeat(1_500)).repeat(43)].concat();
    for (bytes, answer) in [(65_536, None), (65_537, Some(-5))] {
        let last = bytes - MANIFEST.len() - long.len() - "grant\t1\tin\t\n".len();
        let text = format!("{long}grant\t1\tin\t{}\n", "t".repeat(last));
        let buffers = charging(text.as_bytes());
        assert_eq!(buffers.manifest.len(), bytes);
        assert_eq!(mounted(buffers).err(), answer, "{bytes} bytes");
    }
}

type Call = fn(&mut Host, &mut [u8]) -> host::ModuleAnswer;

/// A weave over a card that holds one take of 152 bytes: each call, and what it answers.
const WEAVE: [(Call, u64); 6] = [
    // a record of 128 + 16 + 8 = 152 bytes: 1 + 152 / 8 = 20, or under 2: 4 + 152 / 64, which is 2.375, = 7
    (|host, memory| write(host, memory, b"loop/take", b"chorus"), 0),
    // the same record is handed over: 1 + 152 / 8 = 20
    (|host, memory| read(host, memory, b"loop/take"), 152),
    // 1
    (|host, memory| open(host, memory, b"loop/"), 1),
    // the take on the card: 1 + 152 / 8 = 20
    (|host, memory| next(host, memory, 1, 152), 152),
    // the end of the list: 1 + 0 / 8 = 1
    (|host, memory| next(host, memory, 1, 152), 0),
    // 1
    (|host, memory| close(host, memory, 1), 0),
];

/// What is spent after each call.
const UNDER_1: [u64; 6] = [20, 40, 41, 61, 62, 63];
const UNDER_2: [u64; 6] = [7, 27, 28, 48, 49, 50];

/// A box with the take, in a weave with so many units. Ingress needs none.
fn begun(charge: &[u8], res_max: u64) -> Host {
    let mut host = mounted(charging(charge)).ok().unwrap();
    assert_eq!(host.begin(&weave(0, 5_000)), Ok(0));
    assert_eq!(host.ingress(b"loop/take", b"verse"), Ok(0));
    assert_eq!(host.module_return(0), Fate::Committed { events: 1, bytes: 152 });
    assert_eq!(host.begin(&weave(res_max, 6_000)), Ok(0));
    host
}

/// The units meet the first `paid` calls: these are answered, all others are -6, and the units stay.
fn meets(paid: usize, res_max: u64, spent: &[u64; 6], charge: &[u8]) {
    let mut host = begun(charge, res_max);
    let mut memory = vec![0; 65_536];
    let mut units = 0;
    for (n, (call, answer)) in WEAVE.iter().enumerate() {
        let mut expected = Err(Refusal::Code(-6));
        if n < paid {
            (expected, units) = (Ok(*answer), spent[n]);
        }
        let told = (call(&mut host, &mut memory), host.state().units);
        assert_eq!(told, (expected, units), "call {n} of a weave with {res_max} units, {charge:?}");
    }
    let fate = if paid == WEAVE.len() { Fate::Committed { events: 1, bytes: 152 } } else { Fate::Discarded(-6) };
    assert_eq!(host.module_return(0), fate);
}

#[test]
fn each_call_in_turn_is_the_one_that_the_budget_does_not_meet() {
    for (charge, spent) in [(&b""[..], UNDER_1), (b"charge\t1\n", UNDER_1), (b"charge\t2\n", UNDER_2)] {
        for (n, units) in spent.into_iter().enumerate() {
            meets(n, units - 1, &spent, charge);
            meets(n + 1, units, &spent, charge);
        }
    }
}

/// Behind a topic of 9 bytes, which take 16, a payload of 48 makes a record of 192 bytes, one of 49 a record of 200.
#[test]
fn rule_2_rounds_up() {
    let mut memory = vec![0; 65_536];
    let mut host = mounted(charging(b"charge\t2\n")).ok().unwrap();
    // 4 + 192 / 64 = 7; 4 + 200 / 64, which is 3.125, = 8; 4 + 256 / 64 = 8; 4 + 264 / 64, which is 4.125, = 9
    for (payload, total, units) in [(48, 192, 7), (49, 200, 8), (112, 256, 8), (113, 264, 9)] {
        assert_eq!(host.begin(&weave(units, 0)), Ok(0));
        assert_eq!(write(&mut host, &mut memory, b"loop/take", &vec![b'v'; payload]), Ok(0));
        assert_eq!(host.state().units, units);
        assert_eq!(host.module_return(0), Fate::Committed { events: 1, bytes: total });
        assert_eq!(host.begin(&weave(units - 1, 0)), Ok(0));
        assert_eq!(write(&mut host, &mut memory, b"loop/take", &vec![b'v'; payload]), Err(Refusal::Code(-6)));
        assert_eq!(host.state().units, 0);
        assert_eq!(host.module_return(0), Fate::Discarded(-6));
    }
    // "stages and charges nothing", under 2 as under 1
    assert_eq!(host.begin(&weave(0, 0)), Ok(0));
    assert_eq!(write(&mut host, &mut memory, b"filament/core/panic", b""), Ok(0));
    assert_eq!(host.module_return(0), Fate::Discarded(-1));
}

/// What a module asks for: where its argument record lies, the record's words, and what these speak of.
#[derive(Clone)]
struct Asked {
    at: u64,
    words: Vec<u64>,
    topic: Vec<u8>,
    /// the value, of a write that has one
    cell: [u64; 4],
    memory: usize,
}

/// The record at 8, the topic or filter at 64, the payload or the value at 8,192, its string at 8,256.
fn asked(words: &[u64]) -> Asked {
    Asked { at: 8, words: words.to_vec(), topic: b"loop/take".to_vec(), cell: [5, 8_256, 5, 0], memory: 65_536 }
}

impl Asked {
    /// All else are letters, so that a topic that is too long is only that.
    fn memory(&self) -> Vec<u8> {
        let mut memory = vec![b'a'; self.memory];
        memory[64..64 + self.topic.len()].copy_from_slice(&self.topic);
        put(&mut memory, 8_192, &self.cell);
        // a record that does not lie inside has no words
        if self.at <= 64 {
            put(&mut memory, self.at as usize, &self.words);
        }
        memory
    }
}

type Ask = fn(&mut Host, &mut [u8], u64) -> host::ModuleAnswer;

/// How a field is made bad.
type Spoil = (Field, fn(&mut Asked));

/// The one fault before the record that a caller of the owner can make: a memory that is too large. All else is lent by the owner.
const BEFORE: Spoil = (Field::Before, |a| a.memory = 1_048_577);

const RECORD: [Spoil; 5] = [
    (Field::Record, |a| a.at = 9),
    (Field::Record, |a| a.at = 12),
    (Field::Record, |a| a.at = 0),
    (Field::Record, |a| a.at = 65_536),
    (Field::Record, |a| a.at = u64::MAX - 7),
];

/// Of a topic and of a filter: the span, the length, the bytes.
const TEXT: [Spoil; 7] = [
    (Field::Topic, |a| a.words[0] = 0),
    (Field::Topic, |a| a.words[0] = 65_528),
    (Field::Topic, |a| a.words[0] = u64::MAX),
    (Field::Topic, |a| a.words[1] = u64::MAX),
    (Field::Topic, |a| a.words[1] = 2_049),
    (Field::Topic, |a| a.topic[8] = 127),
    (Field::Topic, |a| a.topic[0] = 0xFF),
];

const EMPTY_TOPIC: [Spoil; 1] = [(Field::Topic, |a| a.words[1] = 0)];
const LONG_FILTER: [Spoil; 1] = [(Field::Topic, |a| a.words[1] = 65)];

/// Flags are looked at before data and len, though they stand behind them.
const RAW_WRITE: [Spoil; 7] = [
    (Field::Flags, |a| a.words[4] = 0),
    (Field::Flags, |a| a.words[4] = 3),
    (Field::Flags, |a| a.words[4] = 5),
    (Field::Data, |a| a.words[2] = 0),
    (Field::Data, |a| a.words[2] = 65_535),
    (Field::Data, |a| a.words[2] = u64::MAX - 7),
    (Field::Data, |a| a.words[3] = u64::MAX),
];

/// The last two are inside the value: check 8, where all others are check 6.
const VALUE_WRITE: [Spoil; 10] = [
    (Field::Flags, |a| a.words[4] = 3),
    (Field::Flags, |a| a.words[4] = 6),
    (Field::Data, |a| a.words[2] = 8_196),
    (Field::Data, |a| a.words[2] = 65_544),
    (Field::Data, |a| a.words[2] = u64::MAX - 7),
    (Field::Len, |a| a.words[3] = 0),
    (Field::Len, |a| a.words[3] = 31),
    (Field::Len, |a| a.words[3] = 33),
    (Field::Data, |a| a.cell[1] = 0),
    (Field::Data, |a| a.cell[2] = u64::MAX),
];

const READ: [Spoil; 5] = [
    (Field::OutPtr, |a| a.words[3] = 8_196),
    (Field::OutPtr, |a| a.words[3] = 0),
    (Field::OutPtr, |a| a.words[3] = 65_536),
    (Field::OutPtr, |a| a.words[3] = u64::MAX - 7),
    (Field::OutPtr, |a| a.words[4] = u64::MAX),
];

const OPEN: [Spoil; 2] = [(Field::Desc, |a| a.words[5] = 2), (Field::Desc, |a| a.words[5] = 255)];

const NEXT: [Spoil; 5] = [
    (Field::OutPtr, |a| a.words[1] = 8_196),
    (Field::OutPtr, |a| a.words[1] = 0),
    (Field::OutPtr, |a| a.words[1] = 65_536),
    (Field::OutPtr, |a| a.words[1] = u64::MAX - 7),
    (Field::OutPtr, |a| a.words[2] = u64::MAX),
];

/// 02, A5, as a table: each module call, good in every field, and how these can be bad, in the order of the checks.
fn table() -> [(&'static str, Ask, Asked, Vec<Spoil>); 6] {
    let write: Ask = |host, memory, at| host.write(memory, at);
    let open: Ask = |host, memory, at| host.open(memory, at);
    let close: Ask = |host, memory, at| host.close(memory, at);
    let topic = [&TEXT[..], &EMPTY_TOPIC].concat();
    let filter = [&TEXT[..], &LONG_FILTER].concat();
    [
        ("a raw write", write, asked(&[64, 9, 8_192, 16, 1]), [&topic[..], &RAW_WRITE].concat()),
        ("a write of a value", write, asked(&[64, 9, 8_192, 32, 2]), [&topic[..], &VALUE_WRITE].concat()),
        ("a read", Host::read, asked(&[64, 9, 0, 8_192, 1_000]), [&topic[..], &READ].concat()),
        ("an open", open, asked(&[64, 9, 0, 9, 9, 1]), [&filter[..], &OPEN].concat()),
        ("a next", Host::next, asked(&[1, 8_192, 1_000]), NEXT.to_vec()),
        ("a close", close, asked(&[1]), vec![]),
    ]
}

/// Each field bad alone, each two at once, and a memory too large beside each: the first in the order of the checks is the one that is named.
#[test]
fn a_refusal_names_the_first_field_that_failed() {
    for (name, ask, good, fields) in table() {
        let (mut host, _) = session(1_000);
        let before = *host.state();
        let faults = [&[BEFORE][..], &RECORD, &fields].concat();
        let mut refused = |bad: &[Spoil]| {
            let mut asked = good.clone();
            bad.iter().for_each(|(_, spoil)| spoil(&mut asked));
            let answer = ask(&mut host, &mut asked.memory(), asked.at);
            let told: Vec<Field> = bad.iter().map(|(field, _)| *field).collect();
            assert_eq!(answer, Err(Refusal::Bad(told[0])), "{name} with {told:?} bad, {} {:?}", asked.at, asked.words);
            assert_eq!(*host.state(), before, "{name} with {told:?} bad");
        };
        for (n, one) in faults.iter().enumerate() {
            refused(&[*one]);
            faults[n + 1..].iter().for_each(|other| refused(&[*one, *other]));
        }
        // and the fields are bad alone, as without them the call is taken
        assert!(ask(&mut host, &mut good.memory(), good.at).is_ok(), "{name}");
    }
}

/// A value's span is asked for with its len as it stands, and only then whether that is 32.
#[test]
fn a_values_span_has_the_len_that_stands_there() {
    let (mut host, _) = session(1_000);
    for (data, len, field) in [
        (8_192, 65_536, Field::Data),
        (8_192, u64::MAX, Field::Data),
        (65_504, 33, Field::Data),
        (65_504, 31, Field::Len),
        (65_528, 8, Field::Len),
        (65_536, 0, Field::Len),
        (0, 0, Field::Len),
        (0, 1, Field::Data),
        (65_529, 7, Field::Data),
    ] {
        let memory = asked(&[64, 9, data, len, 2]).memory();
        assert_eq!(host.write(&memory, 8), Err(Refusal::Bad(field)), "a value at {data}, len {len}");
    }
}

/// What is no -5 stands between: -2 and -1 of checks 2 and 3 behind 254, -1 for the grant behind check 6, -2 for the handle behind out_ptr.
#[test]
fn other_codes_keep_their_places_among_the_fields() {
    let mut host = Host::mount(buffers(), 0).ok().unwrap();
    let good = asked(&[64, 9, 8_192, 16, 1]).memory();
    assert_eq!(host.write(&good, 9), Err(Refusal::Code(-2)));
    assert_eq!(host.write(&vec![0; 1_048_577], 9), Err(Refusal::Bad(Field::Before)));
    assert_eq!(host.begin(&weave(1_000, 0)), Ok(0));
    // a topic that nobody may write, and a value that is bad in check 6, then in check 8
    let mut ask = asked(&[64, 9, 8_192, 31, 2]);
    ask.topic = b"loop/none".to_vec();
    ask.cell[1] = 0;
    assert_eq!(host.write(&ask.memory(), 8), Err(Refusal::Bad(Field::Len)));
    ask.words[3] = 32;
    assert_eq!(host.write(&ask.memory(), 8), Err(Refusal::Code(-1)));
    // a value type that there is not, before its span
    ask.topic = b"loop/take".to_vec();
    assert_eq!(host.write(&ask.memory(), 8), Err(Refusal::Bad(Field::Data)));
    ask.cell[0] = 6;
    assert_eq!(host.write(&ask.memory(), 8), Err(Refusal::Code(-7)));
    let mut memory = asked(&[7, 8_196, 1_000]).memory();
    assert_eq!(host.next(&mut memory, 8), Err(Refusal::Bad(Field::OutPtr)));
    assert_eq!(next(&mut host, &mut memory, 7, 1_000), Err(Refusal::Code(-2)));
    assert_eq!(write(&mut host, &mut memory, b"filament/core/panic", b""), Ok(0));
    assert_eq!(host.write(&memory, 9), Err(Refusal::Code(-1)));
    assert_eq!(host.write(&vec![0; 1_048_577], 9), Err(Refusal::Bad(Field::Before)));
}
