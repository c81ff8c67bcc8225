//! A shelf over threads: one feeds, the others have the books.

use std::collections::VecDeque;
use std::fmt::{self, Debug, Formatter};
use std::num::NonZeroUsize;
use std::sync::mpsc::{self, Receiver, SyncSender, TryRecvError};
use std::sync::{Arc, Condvar, Mutex, MutexGuard, PoisonError};
use std::thread::{self, JoinHandle};

use quotebook::lent::{ANSWER_LEN, SHARES_LEN};
use quotebook::{Book, LineRecord, Publication, Refusal, Report, Run, Taken};

use crate::books::{Books, Held};
use crate::front::Front;
use crate::index::Listing;
use crate::portion::Portion;
use crate::shelf::{convert, symbol_bytes, Shelf};

/// The most blocks that wait for their answers.
const WAITING: usize = 64;
/// A thread that has more to do tells of so many portions at a time that they are done: to be woken
/// costs more than a portion.
const TOLD_TOGETHER: usize = 16;

/// A shelf whose books stand on several threads, each book on one of them.
///
/// The thread that calls is the one that feeds: it has the front book, which judges every block and keeps
/// the lines, and it may have a share of the other books too. Each thread works its messages in the order
/// of the calls, so a symbol's messages keep their order. All answers are those of [`Shelf`].
///
/// [`take_block`](ThreadedShelf::take_block) waits for the answers of its block.
/// [`submit`](ThreadedShelf::submit) goes on at once, and answers come later, in the order of the blocks.
/// All queues are bounded, and no block allocates.
///
/// # Panics
///
/// A call panics if a thread of the shelf has panicked, which none should.
pub struct ThreadedShelf {
    front: Front,
    threads: Vec<Worker>,
    /// The books of the thread that feeds, if it has some.
    own: Option<Books>,
    /// The portions that the next block is divided into, one for each thread, its own the last.
    portions: Vec<Portion>,
    /// Portions that came back, to be filled again; and those that come back.
    spare: Vec<Portion>,
    returned: Vec<Portion>,
    done: Arc<Done>,
    /// The blocks without an answer yet, and those whose answer was not asked for; the number of the
    /// first.
    waiting: VecDeque<Waiting>,
    first: u64,
}

struct Worker {
    jobs: SyncSender<Job>,
    thread: JoinHandle<Books>,
}

/// The portions that are done, of all threads.
#[derive(Default)]
struct Done {
    state: Mutex<State>,
    some: Condvar,
}

#[derive(Default)]
struct State {
    portions: Vec<Portion>,
    panicked: bool,
}

impl Done {
    fn lock(&self) -> MutexGuard<'_, State> {
        self.state.lock().unwrap_or_else(PoisonError::into_inner)
    }

    fn put(&self, portion: Portion) {
        self.lock().portions.push(portion);
    }

    fn tell(&self) {
        self.some.notify_one();
    }

    /// Waits until some are done, and takes all of them.
    fn take(&self, into: &mut Vec<Portion>) {
        let none = |state: &mut State| state.portions.is_empty() && !state.panicked;
        let waited = self.some.wait_while(self.lock(), none);
        let mut state = waited.unwrap_or_else(PoisonError::into_inner);
        assert!(!state.panicked, "{ENDED}");
        std::mem::swap(&mut state.portions, into);
    }
}

/// Tells whoever waits if the thread panics.
struct Watch<'a>(&'a Done);

impl Drop for Watch<'_> {
    fn drop(&mut self) {
        if thread::panicking() {
            self.0.lock().panicked = true;
            self.0.tell();
        }
    }
}

/// What a thread is asked to do.
enum Job {
    Take(Portion),
    Ask(Box<dyn FnOnce(&mut Books) + Send>),
}

/// A block whose portions are under way.
struct Waiting {
    report: Report,
    answer: [u8; ANSWER_LEN],
    portions: usize,
}

impl ThreadedShelf {
    /// Deals the books to threads of their own, and to the one that feeds if it is to work too.
    pub(crate) fn new(shelf: Shelf, threads: NonZeroUsize, feeder_works: bool) -> ThreadedShelf {
        let shares = threads.get() + usize::from(feeder_works);
        let mut dealt: Vec<Vec<Held>> = (0..shares).map(|_| Vec::new()).collect();
        for (at, held) in shelf.books.held.into_iter().enumerate() {
            dealt[at % shares].push(held);
        }
        let own = feeder_works.then(|| dealt.pop()).flatten().map(Books::new);
        let done = Arc::new(Done::default());
        let start = |held| {
            let (jobs, queue) = mpsc::sync_channel(WAITING + 1);
            let done = Arc::clone(&done);
            let thread = thread::spawn(move || work(Books::new(held), &queue, &done));
            Worker { jobs, thread }
        };
        ThreadedShelf {
            front: shelf.front,
            threads: dealt.into_iter().map(start).collect(),
            own,
            portions: (0..shares).map(|_| Portion::new()).collect(),
            spare: Vec::new(),
            returned: Vec::new(),
            done,
            waiting: VecDeque::with_capacity(WAITING + 1),
            first: 0,
        }
    }

    /// Ends the threads and gives the shelf back with all that it has taken. Answers that were not asked
    /// for are lost.
    pub fn gather(self) -> Shelf {
        let ThreadedShelf {
            front,
            threads,
            own,
            ..
        } = self;
        let ended = threads.into_iter().map(|Worker { jobs, thread }| {
            drop(jobs);
            thread.join().expect(ENDED)
        });
        let dealt = ended.chain(own).map(|books| books.held.into_iter());
        let mut dealt: Vec<_> = dealt.collect();
        let shares = dealt.len();
        let held = (0..front.books).filter_map(|at| dealt[at % shares].next());
        let held = held.collect();
        Shelf::from_parts(front, held)
    }

    /// Takes a block and waits for its answers. Those of blocks that were submitted before stay to be
    /// asked for.
    pub fn take_block(&mut self, line: u32, block: &[u8]) -> Result<Taken, Refusal> {
        self.send(line, block);
        let last = self.waiting.len() - 1;
        while self.waiting[last].portions > 0 {
            self.receive();
        }
        let taken = self.waiting.pop_back().expect("the block's own place");
        taken.result()
    }

    /// Takes a block and goes on. If as many blocks as may wait do so, the oldest one's answers are
    /// waited for and given back; they are not given again.
    pub fn submit(&mut self, line: u32, block: &[u8]) -> Option<Result<Taken, Refusal>> {
        self.send(line, block);
        match self.waiting.len() > WAITING {
            true => self.next_answer(),
            false => None,
        }
    }

    /// Waits for the answers of the oldest block that was submitted and not answered yet; none if there
    /// is none.
    pub fn next_answer(&mut self) -> Option<Result<Taken, Refusal>> {
        while self.waiting.front()?.portions > 0 {
            self.receive();
        }
        let taken = self.waiting.pop_front()?;
        self.first += 1;
        Some(taken.result())
    }

    /// The front book takes a block, each thread that has books for it gets its portion, and the one that
    /// feeds works its own.
    fn send(&mut self, line: u32, block: &[u8]) {
        let mut answer = [0; ANSWER_LEN];
        let mut report = self
            .front
            .take(line, block, &mut answer, &mut self.portions);
        let mut portions = 0;
        for (portion, thread) in self.portions.iter_mut().zip(&self.threads) {
            if portion.is_empty() {
                continue;
            }
            portion.block = self.first + self.waiting.len() as u64;
            let next = self.spare.pop().unwrap_or_else(Portion::new);
            let job = Job::Take(std::mem::replace(portion, next));
            thread.jobs.send(job).expect(ENDED);
            portions += 1;
        }
        if let (Some(own), Some(portion)) = (&mut self.own, self.portions.last_mut()) {
            if !portion.is_empty() {
                own.take(portion);
                self.front.merge(portion, &mut report, &mut answer);
            }
        }
        self.waiting.push_back(Waiting {
            report,
            answer,
            portions,
        });
    }

    /// Waits for portions to come back, and merges their answers.
    fn receive(&mut self) {
        self.done.take(&mut self.returned);
        for portion in self.returned.drain(..) {
            let waiting = &mut self.waiting[(portion.block - self.first) as usize];
            waiting.portions -= 1;
            let Waiting { report, answer, .. } = waiting;
            self.front.merge(&portion, report, answer);
            self.spare.push(portion);
        }
    }

    /// Has the thread with a share do something behind all that was sent to it, and waits for what it
    /// answers.
    fn ask<R: Send + 'static>(
        &mut self,
        share: usize,
        question: impl FnOnce(&mut Books) -> R + Send + 'static,
    ) -> R {
        let Some(thread) = self.threads.get(share) else {
            let own = self.own.as_mut();
            return question(own.expect("the last share is that of the thread that feeds"));
        };
        let (tell, told) = mpsc::sync_channel(1);
        let question = move |books: &mut Books| {
            // Somebody who no longer waits for the answer needs none.
            let _ = tell.send(question(books));
        };
        let job = Job::Ask(Box::new(question));
        thread.jobs.send(job).expect(ENDED);
        told.recv().expect(ENDED)
    }

    /// Whether every thread says yes; all are asked.
    fn all(&mut self, question: fn(&mut Books) -> bool) -> bool {
        let shares = 0..self.portions.len();
        let told = shares.map(|share| self.ask(share, question));
        told.fold(true, |all, yes| all & yes)
    }

    /// The share that a book is in, and its place there.
    fn place(&self, book: usize) -> (usize, usize) {
        let shares = self.portions.len();
        (book % shares, book / shares)
    }

    /// Asks the book that answers for a symbol, behind all blocks that were submitted: the one that lists
    /// it, or the front book, which lists none.
    pub fn with_book_of<R: Send + 'static>(
        &mut self,
        symbol: impl AsRef<[u8]>,
        question: impl FnOnce(&Book) -> R + Send + 'static,
    ) -> R {
        let Some(listing) = self.front.index.find(&symbol_bytes(symbol)) else {
            return question(&self.front.book);
        };
        let (share, at) = self.place(listing.book);
        self.ask(share, move |books| question(&books.held[at].book))
    }

    /// Reads a symbol's publication, behind all blocks that were submitted. Other queries go through
    /// [`with_book_of`](ThreadedShelf::with_book_of).
    pub fn read(&mut self, symbol: impl AsRef<[u8]>) -> Result<Publication, Refusal> {
        let asked = symbol_bytes(symbol);
        self.with_book_of(asked, move |book| book.read(asked))
    }

    /// As [`Shelf::add_symbol`].
    pub fn add_symbol(
        &mut self,
        symbol: impl AsRef<[u8]>,
        round_lot: u32,
        primary: u8,
    ) -> Result<(), Refusal> {
        self.front.check()?;
        let symbol = symbol_bytes(symbol);
        let book = self.front.book_to_add(&symbol);
        let (share, at) = self.place(book);
        self.ask(share, move |books| {
            books.held[at].book.add_symbol(symbol, round_lot, primary)
        })?;
        self.front.list(&symbol, Listing { book, round_lot });
        Ok(())
    }

    /// As [`Shelf::open_line`].
    pub fn open_line(&mut self, line: u32, letter: u8) -> Result<(), Refusal> {
        self.front.check()?;
        self.front.book.open_line(line, letter)
    }

    /// As [`Shelf::start_day`], behind all blocks that were submitted.
    pub fn start_day(&mut self) -> Result<(), Refusal> {
        self.check_books()?;
        self.front.book.start_day()?;
        self.front.damaged |= !self.all(Books::start_day);
        self.front.check()
    }

    /// As [`Shelf::end_day`], behind all blocks that were submitted.
    pub fn end_day(&mut self) -> Result<(), Refusal> {
        self.check_books()?;
        self.front.book.end_day()?;
        self.front.damaged |= !self.all(Books::end_day);
        self.front.check()
    }

    /// As [`Shelf::set_allowance`].
    pub fn set_allowance(&mut self, blocks: u32, shares: &[u8; SHARES_LEN]) -> Result<(), Refusal> {
        self.front.check()?;
        self.front.book.set_allowance(blocks, shares)
    }

    /// As [`Shelf::tick`].
    pub fn tick(&mut self) -> Result<(), Refusal> {
        self.front.check()?;
        self.front.book.tick()
    }

    fn check_books(&mut self) -> Result<(), Refusal> {
        self.front.damaged |= !self.all(|books| books.are_sound());
        self.front.check()
    }

    /// As [`Shelf::line`].
    pub fn line(&self, line: u32) -> Option<LineRecord> {
        self.front.book.line(line)
    }

    /// As [`Shelf::convert`].
    pub fn convert(&self, block: &[u8]) -> Result<Run, Refusal> {
        convert(&self.front, block)
    }

    /// How many threads have books, the one that feeds among them if it has some.
    pub fn threads(&self) -> usize {
        self.portions.len()
    }
}

const ENDED: &str = "a thread of the shelf has panicked";

/// Does what is asked, in order, until nobody asks any more.
fn work(mut books: Books, queue: &Receiver<Job>, done: &Done) -> Books {
    let _watch = Watch(done);
    let mut untold = 0;
    loop {
        let job = match queue.try_recv() {
            Err(TryRecvError::Empty) => {
                if untold > 0 {
                    done.tell();
                    untold = 0;
                }
                queue.recv().ok()
            }
            job => job.ok(),
        };
        match job {
            Some(Job::Take(mut portion)) => {
                books.take(&mut portion);
                done.put(portion);
                untold += 1;
                if untold == TOLD_TOGETHER {
                    done.tell();
                    untold = 0;
                }
            }
            Some(Job::Ask(question)) => question(&mut books),
            None => return books,
        }
    }
}

impl Waiting {
    fn result(self) -> Result<Taken, Refusal> {
        Taken::new(self.report, self.answer)
    }
}

impl Debug for ThreadedShelf {
    fn fmt(&self, f: &mut Formatter) -> fmt::Result {
        let (books, symbols) = (self.front.books, self.front.listed);
        let threads = self.threads();
        write!(
            f,
            "Shelf of {books} books, {symbols} symbols, {threads} threads"
        )
    }
}
