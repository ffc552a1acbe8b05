// What `bus NODES MESSAGES SEED` prints, by a plain program without threads, queues or proofs: bench/bus times it beside the
// proved one.
use std::env;
use std::fmt::Write;

struct Generator {
    state: u64,
    increment: u64,
}

impl Generator {
    fn new(seed: u64, stream: u64) -> Generator {
        let increment = stream << 1 | 1;
        let mut it = Generator { state: seed.wrapping_add(increment), increment };
        it.step();
        it
    }

    fn step(&mut self) {
        self.state = self.state.wrapping_mul(6364136223846793005).wrapping_add(self.increment);
    }

    fn next(&mut self) -> u32 {
        let state = self.state;
        self.step();
        ((((state >> 18) ^ state) >> 27) as u32).rotate_right((state >> 59) as u32)
    }
}

#[derive(Clone)]
struct Message {
    srvid: u64,
    place: u64,
    body: Vec<u8>,
}

struct Handled {
    message: Message,
    answers: Vec<Vec<u8>>,
}

fn answers(message: &Message) -> Vec<Vec<u8>> {
    let body = &message.body;
    match message.srvid {
        0 => vec![body.clone()],
        1 => vec![[body.as_slice(), body.as_slice()].concat()],
        2 => vec![body[..1].to_vec(), body.clone()],
        _ => Vec::new(),
    }
}

fn main() {
    let words: Vec<u64> = env::args().skip(1).map(|word| word.parse().unwrap()).collect();
    let (nodes, messages, seed) = (words[0] as usize, words[1], words[2]);
    let mut scripts: Vec<Vec<Vec<Message>>> = (0..nodes).map(|_| (0..nodes).map(|_| Vec::new()).collect()).collect();
    for sender in 0..nodes {
        let mut generator = Generator::new(seed, sender as u64 + 1);
        for place in 0..messages {
            for receiver in (0..nodes).filter(|it| *it != sender) {
                let word = generator.next();
                let body = (word / 4 % 1000).to_string().into_bytes();
                scripts[sender][receiver].push(Message { srvid: u64::from(word % 4), place, body });
            }
        }
    }
    let mut text = String::new();
    for receiver in 0..nodes {
        for sender in (0..nodes).filter(|it| *it != receiver) {
            let all: Vec<Handled> = scripts[sender][receiver]
                .iter()
                .map(|message| Handled { message: message.clone(), answers: answers(message) })
                .collect();
            assert!(all.iter().enumerate().all(|(place, it)| it.message.place == place as u64));
            let count: usize = all.iter().map(|it| it.answers.len()).sum();
            let bytes: usize = all.iter().flat_map(|it| &it.answers).map(|it| it.len()).sum();
            writeln!(text, "bus {receiver} {sender} handled {} answers {count} bytes {bytes}", all.len()).unwrap();
        }
    }
    print!("{text}");
}
