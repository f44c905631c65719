//! Names what differs between two answers, word by word.

/// A word of an answer with its name.
type Named = (String, u64);

/// An answer that can be listed word by word.
pub trait Answer: PartialEq {
    fn reply(&self) -> u32;
    fn words(&self) -> Vec<Named>;
}

/// Adds the words of a list under one name.
fn list<T: Copy + Into<u64>>(words: &mut Vec<Named>, name: &str, values: &[T]) {
    let named = values.iter().enumerate();
    words.extend(named.map(|(index, &value)| (format!("{name}[{index}]"), value.into())));
}

fn head(reply: u32, place: usize) -> Vec<Named> {
    vec![
        ("reply".into(), reply.into()),
        ("place".into(), place as u64),
    ]
}

impl Answer for fppn::Loaded {
    fn reply(&self) -> u32 {
        self.reply
    }

    fn words(&self) -> Vec<Named> {
        let mut words = head(self.reply, self.place);
        let network = &self.network;
        list(&mut words, "process_count", &[network.process_count]);
        for (number, process) in network.processes.iter().enumerate() {
            let fields = [
                process.period,
                process.burst,
                process.deadline,
                process.budget,
            ];
            list(&mut words, &format!("processes[{number}]"), &fields);
        }
        list(&mut words, "pair_count", &[network.pair_count]);
        for (number, pair) in network.pairs.iter().enumerate() {
            list(
                &mut words,
                &format!("pairs[{number}]"),
                &[pair.higher, pair.lower],
            );
        }
        list(&mut words, "channel_count", &[network.channel_count]);
        for (number, channel) in network.channels.iter().enumerate() {
            let fields = [
                channel.kind,
                channel.writer,
                channel.reader,
                channel.capacity,
            ];
            list(&mut words, &format!("channels[{number}]"), &fields);
        }
        list(&mut words, "action_counts", &network.action_counts);
        list(&mut words, "actions", &network.actions);
        words
    }
}

impl Answer for fppn::Written {
    fn reply(&self) -> u32 {
        self.reply
    }

    fn words(&self) -> Vec<Named> {
        let mut words = head(self.reply, self.place);
        words.push(("length".into(), self.length as u64));
        words
    }
}

impl Answer for fppn::GraphResult {
    fn reply(&self) -> u32 {
        self.reply
    }

    fn words(&self) -> Vec<Named> {
        let mut words = head(self.reply, self.place);
        words.push(("jobs".into(), self.jobs.into()));
        words.push(("frame".into(), self.frame.into()));
        words.push(("edges".into(), self.edges.into()));
        list(&mut words, "process", &self.process);
        list(&mut words, "release", &self.release);
        list(&mut words, "deadline", &self.deadline);
        list(&mut words, "budget", &self.budget);
        list(&mut words, "rows", &self.rows);
        words
    }
}

impl Answer for fppn::Ran {
    fn reply(&self) -> u32 {
        self.reply
    }

    fn words(&self) -> Vec<Named> {
        let mut words = head(self.reply, self.place);
        left(&mut words, &self.variables, &self.channels);
        words
    }
}

impl Answer for fppn::Answer {
    fn reply(&self) -> u32 {
        self.reply
    }

    fn words(&self) -> Vec<Named> {
        head(self.reply, self.place)
    }
}

impl Answer for fppn::Turned {
    fn reply(&self) -> u32 {
        self.reply
    }

    fn words(&self) -> Vec<Named> {
        let mut words = head(self.reply, self.place);
        words.push(("frames".into(), self.frames as u64));
        words.push(("jobs".into(), self.jobs as u64));
        words.push(("working".into(), self.working as u64));
        words.push(("waiting".into(), self.waiting as u64));
        left(&mut words, &self.variables, &self.channels);
        words
    }
}

impl Answer for fppn::Listed {
    fn reply(&self) -> u32 {
        self.reply
    }

    fn words(&self) -> Vec<Named> {
        let mut words = head(self.reply, self.place);
        words.push(("length".into(), self.length as u64));
        words
    }
}

/// Adds what a run leaves.
fn left(words: &mut Vec<Named>, variables: &[u32], channels: &[fppn::Held]) {
    list(words, "variables", variables);
    for (number, channel) in channels.iter().enumerate() {
        let name = |part: &str| format!("channels[{number}].{part}");
        list(words, &name("held"), &[channel.held]);
        list(words, &name("values"), &channel.values);
        list(words, &name("loss"), &[channel.loss]);
    }
}

/// Lines that name what differs between the library's answer and this implementation's.
pub fn of_answers<A: Answer>(library: &A, second: &A) -> Vec<String> {
    if library == second {
        return Vec::new();
    }
    let both = library.words().into_iter().zip(second.words());
    let different = both.filter(|((_, library), (_, second))| library != second);
    different
        .map(|((name, library), (_, second))| line(&name, library, second))
        .collect()
}

/// Lines that name where lent memory differs. The places are counted from the memory's front, and
/// those before it are negative.
pub fn of_memory<T>(name: &str, guard: usize, library: &[T], second: &[T]) -> Vec<String>
where
    T: Copy + PartialEq + Into<u64>,
{
    if library == second {
        return Vec::new();
    }
    let both = library.iter().zip(second).enumerate();
    let different = both.filter(|(_, (library, second))| library != second);
    let line = |(index, (&library, &second)): (usize, (&T, &T))| {
        let place = index as i64 - guard as i64;
        line(&format!("{name}[{place}]"), library.into(), second.into())
    };
    different.map(line).collect()
}

fn line(name: &str, library: u64, second: u64) -> String {
    format!("{name}: library {library}, second {second}")
}
