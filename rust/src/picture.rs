//! A pool as text.

use std::fmt;

use crate::fault::{self, Fault};
use crate::svg::Svg;
use crate::tables::{Link, State, Tables};

/// A read-only picture of a pool, drawn from its bytes alone.
///
/// One line a slip, with the chain's length and its pieces in order; then the buffers with their
/// counts, and how many pieces are in use. A piece is `pD[bB OFFSET+LENGTH]`, with `xCOUNT` behind
/// it where more than one slip or piece holds it: such a piece stands in several lines, and is
/// shared.
///
/// A slip is written as a [`Slip`](crate::Slip) is, so with its serial where that is not 0; a vacant
/// one as it is given next. One that is spent is not given again, and its line says so.
///
/// Any bytes can be drawn. A torn pool is drawn as far as it goes, with a last line that says what
/// is wrong; no chain is followed for more steps than there are pieces.
///
/// ```
/// use fulcrumnest::{Pool, Shape};
///
/// let shape = Shape { buffers: 4, pieces: 6, slips: 4 };
/// let (mut pool, mut storage) = ([0; 95], [0; 2048]);
/// let mut pool = Pool::open(&mut pool, &mut storage, shape)?;
/// let slip = pool.put(&[1; 600])?;
/// pool.cut(slip, 500, 50)?;
/// pool.dup(slip)?;
///
/// let text = "\
/// slip 0  600 bytes  p0[b0 0+512] > p1[b1 0+88]x2
/// slip 1   50 bytes  p2[b0 500+12] > p3[b1 0+38]
/// slip 2  600 bytes  p4[b0 0+512] > p1[b1 0+88]x2
/// slip 3  vacant
/// buffers  b0 x3  b1 x2  b2 free  b3 free
/// pieces   5 in use, 1 free";
/// assert_eq!(pool.picture().to_string(), text);
/// # Ok::<(), fulcrumnest::Refusal>(())
/// ```
#[derive(Clone, Copy)]
pub struct Picture<'a> {
    pool: &'a [u8],
    storage: &'a [u8],
}

impl<'a> Picture<'a> {
    /// A picture of any bytes; of storage only the length matters.
    ///
    /// ```
    /// use fulcrumnest::Picture;
    ///
    /// let picture = Picture::new(b"SLP and more", &[]);
    /// assert_eq!(picture.to_string(), "torn     the version is 24864, not 2");
    /// ```
    pub fn new(pool: &'a [u8], storage: &'a [u8]) -> Picture<'a> {
        Picture { pool, storage }
    }

    /// What keeps the pool from being sound, if anything: the first thing found.
    ///
    /// ```
    /// use fulcrumnest::{Picture, Pool, Shape};
    ///
    /// let shape = Shape { buffers: 4, pieces: 6, slips: 4 };
    /// let (mut pool, mut storage) = ([0; 95], [0; 2048]);
    /// Pool::open(&mut pool, &mut storage, shape)?;
    /// assert_eq!(Picture::new(&pool, &storage).fault(), None);
    ///
    /// pool[87] = 5;
    /// let fault = Picture::new(&pool, &storage).fault().unwrap();
    /// assert_eq!(fault.to_string(), "buffer 0 has count 5, pieces 0");
    /// # Ok::<(), fulcrumnest::Refusal>(())
    /// ```
    pub fn fault(&self) -> Option<Fault> {
        fault::find(self.pool, self.storage).err()
    }

    /// The same picture in Scalable Vector Graphics.
    ///
    /// ```
    /// use fulcrumnest::{Pool, Shape};
    ///
    /// let shape = Shape { buffers: 4, pieces: 6, slips: 4 };
    /// let (mut pool, mut storage) = ([0; 95], [0; 2048]);
    /// let pool = Pool::open(&mut pool, &mut storage, shape)?;
    /// let text = pool.picture().svg().to_string();
    /// assert!(text.ends_with("</svg>\n"));
    /// # Ok::<(), fulcrumnest::Refusal>(())
    /// ```
    pub fn svg(self) -> Svg<'a> {
        Svg::new(self)
    }

    /// The tables, where the header and the pool's length allow to read any.
    pub(crate) fn tables(&self) -> Option<Tables<'a>> {
        Tables::of(self.pool).ok()
    }
}

impl fmt::Debug for Picture<'_> {
    fn fmt(&self, f: &mut fmt::Formatter<'_>) -> fmt::Result {
        fmt::Display::fmt(self, f)
    }
}

impl fmt::Display for Picture<'_> {
    fn fmt(&self, f: &mut fmt::Formatter<'_>) -> fmt::Result {
        let tables = self.tables();
        if let Some(tables) = &tables {
            slip_lines(f, tables)?;
            buffers_line(f, tables)?;
            let used = tables.in_use().count();
            let free = tables.shape.pieces as usize - used;
            write!(f, "pieces   {used} in use, {free} free")?;
        }
        match self.fault() {
            Some(fault) if tables.is_some() => write!(f, "\ntorn     {fault}"),
            Some(fault) => write!(f, "torn     {fault}"),
            None => Ok(()),
        }
    }
}

/// What is said of a spent slip.
pub(crate) const SPENT: &str = "vacant and spent: not given again until an open";

/// How many decimal digits a number has.
fn digits(n: u64) -> usize {
    n.to_string().len()
}

/// The bytes of a chain, as far as it goes.
fn length(chain: &[Link]) -> u64 {
    let of = |link: &Link| match link {
        Link::Piece(_, piece) => piece.length as u64,
        _ => 0,
    };
    chain.iter().map(of).sum()
}

/// One line a slip, the vacant ones at serial 0 at the end of a large pool in one.
fn slip_lines(f: &mut fmt::Formatter<'_>, tables: &Tables<'_>) -> fmt::Result {
    let tail = tables.vacant_tail();
    let chains: Vec<Vec<Link>> = (0..tail).map(|s| tables.chain(tables.slip(s))).collect();
    let widest = chains.iter().map(|chain| digits(length(chain))).max();
    let wide = widest.unwrap_or(1);
    let names: Vec<String> = (0..tail).map(|s| tables.name(s).to_string()).collect();
    let longest = names.iter().map(String::len).max().unwrap_or(0);
    for (slip, chain) in (0..tail).zip(&chains) {
        write!(f, "slip {:<longest$}  ", names[slip as usize])?;
        match tables.slip(slip) {
            State::Vacant if tables.is_spent(slip) => writeln!(f, "{SPENT}")?,
            State::Vacant => writeln!(f, "vacant")?,
            State::Empty => writeln!(f, "{:>wide$} bytes  empty", 0)?,
            State::Heads(_) => writeln!(f, "{:>wide$} bytes  {}", length(chain), Chain(chain))?,
        }
    }
    if tail < tables.shape.slips {
        writeln!(f, "slips {tail} to {}  vacant", tables.shape.slips - 1)?;
    }
    Ok(())
}

/// The buffers with their counts.
fn buffers_line(f: &mut fmt::Formatter<'_>, tables: &Tables<'_>) -> fmt::Result {
    write!(f, "buffers")?;
    for b in 0..tables.shape.buffers {
        match tables.buffer(b) {
            0 => write!(f, "  b{b} free")?,
            count => write!(f, "  b{b} x{count}")?,
        }
    }
    writeln!(f)
}

/// The pieces of a chain, joined by ` > `.
struct Chain<'a>(&'a [Link]);

impl fmt::Display for Chain<'_> {
    fn fmt(&self, f: &mut fmt::Formatter<'_>) -> fmt::Result {
        for (position, link) in self.0.iter().enumerate() {
            if position > 0 {
                write!(f, " > ")?;
            }
            write!(f, "{link}")?;
        }
        Ok(())
    }
}

impl fmt::Display for Link {
    fn fmt(&self, f: &mut fmt::Formatter<'_>) -> fmt::Result {
        match self {
            Link::Piece(d, p) => {
                write!(f, "p{d}[b{} {}+{}]", p.buffer, p.offset, p.length)?;
                match p.count {
                    0 | 1 => Ok(()),
                    count => write!(f, "x{count}"),
                }
            }
            Link::Outside(d) => write!(f, "p{d} (none)"),
            Link::Free(d) => write!(f, "p{d} (free)"),
            Link::Again(d) => write!(f, "p{d} (again)"),
        }
    }
}
