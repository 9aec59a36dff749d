//! Areas: the body of a geography, read, turned and written step by step.

use crate::field::{entries, Field};
use crate::foreign::{self, AreaState, AREA_KEPT, RING_KEPT};
use crate::refusal::{found, Refusal};
use crate::value::part;
use crate::written;
use std::fmt;

/// A point on the unit sphere: its x, y and z. Any floats, with every bit as in the body, those of a NaN too.
pub type Vertex = [f64; 3];

/// A ring of an area: the first goes around it, each other one around a hole.
#[derive(Clone, Copy, Debug, PartialEq, Eq, Hash)]
pub struct Ring {
    /// Where it begins in the body.
    pub place: usize,
    /// A byte that the server fills in; in a new area 0.
    pub mark: u8,
    /// How many vertices it has.
    pub vertices: usize,
}

/// An area over its bytes: what the body of a geography says.
///
/// A message keeps that body as it is, so it may be no area: opening one looks. Rings and vertices are counted from 0. Each call goes through
/// the body, ring by ring; for all vertices of a ring take [`Area::vertices`].
///
/// ```
/// use chaloenpik::{Area, AreaWriter, Cause};
///
/// let mut out = [0; 200];
/// let mut writer = AreaWriter::begin(&mut out, 0, 1)?;
/// writer.ring(0, [[1.0, 0.0, 0.0], [0.0, 1.0, 0.0], [0.0, 0.0, 1.0]], &[0; 38])?;
/// let body = writer.finish(&[0; 33])?;
///
/// let area = Area::new(body)?;
/// assert_eq!((area.rings(), area.ring(0)?.vertices), (1, 3));
/// let [x, y, z] = area.vertex(0, 1)?;
/// let (longitude, latitude) = (y.atan2(x).to_degrees(), z.atan2(x.hypot(y)).to_degrees());
/// assert_eq!((longitude, latitude), (90.0, 0.0));
///
/// assert_eq!(Area::new(&body[1..]).unwrap_err().cause, Cause::BadGeography);
/// # Ok::<(), chaloenpik::Refusal>(())
/// ```
#[derive(Clone, Copy, PartialEq, Eq)]
pub struct Area<'a> {
    body: &'a [u8],
    rings: usize,
}

/// Without the body, which may be long.
impl fmt::Debug for Area<'_> {
    fn fmt(&self, f: &mut fmt::Formatter<'_>) -> fmt::Result {
        f.debug_struct("Area").field("rings", &self.rings).finish_non_exhaustive()
    }
}

/// The bytes of a ring before its vertices, and those of a vertex and of each of its numbers.
const RING_HEAD: usize = 5;
const VERTEX: usize = 24;
const NUMBER: usize = 8;

impl<'a> Area<'a> {
    /// The area that a body says. Its places are counted from its first byte, those of its refusals too.
    pub fn new(body: &'a [u8]) -> Result<Self, Refusal> {
        // SAFETY: the pointer and the length are those of a slice, which is only read.
        let rings = found(unsafe { foreign::chaloenpik_area_rings(body.as_ptr(), body.len()) })?;
        Ok(Area { body, rings })
    }

    /// Its bytes.
    pub fn body(&self) -> &'a [u8] {
        self.body
    }

    /// The first two bytes, the edition and the internal one, which the server fills in; in a new area 0 and 1.
    pub fn leading(&self) -> [u8; 2] {
        match *self.body {
            [edition, internal, ..] => [edition, internal],
            _ => [0; 2], // no area is so short
        }
    }

    /// How many rings it has, one or more.
    pub fn rings(&self) -> usize {
        self.rings
    }

    /// A ring. Refused 11: there is no such one.
    pub fn ring(&self, ring: usize) -> Result<Ring, Refusal> {
        let mut told = [0; 3];
        // SAFETY: as above; the numbers are lent for writing and are nobody else's.
        found(unsafe { foreign::chaloenpik_area_ring(self.body.as_ptr(), self.body.len(), ring, &mut told) })?;
        let [place, mark, vertices] = told;
        Ok(Ring { place: place as usize, mark: mark as u8, vertices: vertices as usize })
    }

    /// A vertex of a ring. Refused 11: there is no such one.
    pub fn vertex(&self, ring: usize, vertex: usize) -> Result<Vertex, Refusal> {
        let mut axes = [0; 3];
        // SAFETY: as above.
        found(unsafe { foreign::chaloenpik_area_vertex(self.body.as_ptr(), self.body.len(), ring, vertex, &mut axes) })?;
        Ok(axes.map(f64::from_bits))
    }

    /// The vertices of a ring in their order, from the bytes behind its place.
    pub fn vertices(&self, ring: usize) -> Result<impl ExactSizeIterator<Item = Vertex> + 'a, Refusal> {
        let Ring { place, vertices, .. } = self.ring(ring)?;
        let behind = self.body.get(place..).and_then(|ring| ring.get(RING_HEAD..));
        let bytes = behind.and_then(|bytes| bytes.get(..vertices.checked_mul(VERTEX)?)).ok_or(Refusal::UNKNOWN_ANSWER)?;
        Ok(bytes.chunks_exact(VERTEX).map(|vertex| [0, 1, 2].map(|axis| number(&vertex[NUMBER * axis..][..NUMBER]))))
    }

    /// The bytes that are kept of a ring, as that part of the body. Refused 11: there is no such ring.
    pub fn ring_kept(&self, ring: usize) -> Result<&'a [u8; RING_KEPT], Refusal> {
        let mut place = [0; 2];
        // SAFETY: as above.
        found(unsafe { foreign::chaloenpik_area_ring_kept(self.body.as_ptr(), self.body.len(), ring, &mut place) })?;
        self.kept_part(place)
    }

    /// The bytes that are kept of the area, as that part of the body.
    pub fn kept(&self) -> Result<&'a [u8; AREA_KEPT], Refusal> {
        let mut place = [0; 2];
        // SAFETY: as above.
        found(unsafe { foreign::chaloenpik_area_kept(self.body.as_ptr(), self.body.len(), &mut place) })?;
        self.kept_part(place)
    }

    /// All its fields in wire order, as [`crate::fields`] has those of a message. They tile the body: every byte belongs to one.
    pub fn fields(&self) -> Result<Vec<Field>, Refusal> {
        // SAFETY: as above.
        let count = unsafe { foreign::chaloenpik_area_field_count(self.body.as_ptr(), self.body.len()) };
        // SAFETY: as above; `out` has room for `size` numbers, which are lent for writing and are nobody else's.
        let list =
            entries(count, |out, size| unsafe { foreign::chaloenpik_area_fields(self.body.as_ptr(), self.body.len(), 0, out, size) });
        Ok(list?.into_iter().map(Field::from_entry).collect())
    }

    /// The number, in the list of fields, of the one that owns a byte. Refused 11: the body has no such byte.
    pub fn owner(&self, offset: usize) -> Result<usize, Refusal> {
        // SAFETY: as above.
        found(unsafe { foreign::chaloenpik_area_owner(self.body.as_ptr(), self.body.len(), offset) })
    }

    fn kept_part<const SIZE: usize>(&self, place: [u64; 2]) -> Result<&'a [u8; SIZE], Refusal> {
        part(self.body, place[0], place[1])?.try_into().map_err(|_| Refusal::UNKNOWN_ANSWER)
    }
}

fn number(bytes: &[u8]) -> f64 {
    f64::from_bits(bytes.iter().fold(0, |bits, &byte| bits << 8 | u64::from(byte)))
}

/// Gives each ring after the first the other sense, in the body itself: its first vertex stays, and those behind it come in the opposite order.
///
/// Doing it twice restores the body. The answer is how many rings there are; a body that is refused stays as it is.
///
/// ```
/// use chaloenpik::{turn_holes, Area, AreaWriter};
///
/// let corners = [[1.0, 0.0, 0.0], [0.0, 1.0, 0.0], [0.0, 0.0, 1.0]];
/// let mut out = [0; 300];
/// let mut writer = AreaWriter::begin(&mut out, 0, 1)?;
/// writer.ring(0, corners, &[0; 38])?.ring(0, corners, &[0; 38])?;
/// let mut body = writer.finish(&[0; 33])?.to_vec();
///
/// assert_eq!(turn_holes(&mut body)?, 2);
/// let area = Area::new(&body)?;
/// assert!(area.vertices(0)?.eq(corners));
/// assert!(area.vertices(1)?.eq([corners[0], corners[2], corners[1]]));
/// # Ok::<(), chaloenpik::Refusal>(())
/// ```
pub fn turn_holes(body: &mut [u8]) -> Result<usize, Refusal> {
    // SAFETY: the pointer and the length are those of a slice, which is lent alone.
    found(unsafe { foreign::chaloenpik_area_turn_holes(body.as_mut_ptr(), body.len()) })
}

/// An area that is being written into a lent buffer.
///
/// Each step gives the writer back, so that steps can be chained. A refused step changes nothing, and another may be tried.
/// [`AreaWriter::finish`] consumes the writer and gives the body. Whether there are holes follows from the rings.
///
/// ```
/// use chaloenpik::{Area, AreaWriter};
///
/// let mut out = [0; 200];
/// let mut writer = AreaWriter::begin(&mut out, 0, 1)?;
/// writer.open_ring(0)?;
/// for vertex in [[1.0, 0.0, 0.0], [0.0, 1.0, 0.0], [0.0, 0.0, 1.0]] {
///     writer.add_vertex(vertex)?;
/// }
/// writer.close_ring(&[0; 38])?;
/// let body = writer.finish(&[0; 33])?;
/// assert_eq!(Area::new(body)?.rings(), 1);
/// # Ok::<(), chaloenpik::Refusal>(())
/// ```
#[must_use = "before it is finished there is no area"]
pub struct AreaWriter<'b> {
    out: &'b mut [u8],
    state: AreaState,
    position: usize,
}

/// Without the buffer, which may be long.
impl fmt::Debug for AreaWriter<'_> {
    fn fmt(&self, f: &mut fmt::Formatter<'_>) -> fmt::Result {
        f.debug_struct("AreaWriter").field("position", &self.position).finish_non_exhaustive()
    }
}

impl<'b> AreaWriter<'b> {
    /// Begins an area with its first two bytes, the edition and the internal one: 0 and 1 in a new area, and else those that it was read with.
    pub fn begin(out: &'b mut [u8], edition: u8, internal: u8) -> Result<Self, Refusal> {
        let mut state = AreaState::default();
        // SAFETY: the pointer and the length are those of a slice; what is written, buffer and state, is lent alone.
        let position = found(unsafe { foreign::chaloenpik_area_begin(out.as_mut_ptr(), out.len(), &mut state, edition, internal) })?;
        Ok(AreaWriter { out, state, position })
    }

    /// How many bytes are written.
    pub fn position(&self) -> usize {
        self.position
    }

    /// A whole ring: opened, filled and closed. If one of these steps is refused the writer is as it was before the first, though bytes past
    /// its position may not be.
    pub fn ring(&mut self, mark: u8, vertices: impl IntoIterator<Item = Vertex>, kept: &[u8; RING_KEPT]) -> Result<&mut Self, Refusal> {
        let before = (self.state, self.position);
        let written = self.whole_ring(mark, vertices, kept);
        if written.is_err() {
            (self.state, self.position) = before;
        }
        written.map(|()| self)
    }

    fn whole_ring(&mut self, mark: u8, vertices: impl IntoIterator<Item = Vertex>, kept: &[u8; RING_KEPT]) -> Result<(), Refusal> {
        self.open_ring(mark)?;
        for vertex in vertices {
            self.add_vertex(vertex)?;
        }
        self.close_ring(kept).map(|_| ())
    }

    /// Opens a ring with its mark.
    pub fn open_ring(&mut self, mark: u8) -> Result<&mut Self, Refusal> {
        // SAFETY: as above.
        let answer = unsafe { foreign::chaloenpik_area_open_ring(self.out.as_mut_ptr(), self.out.len(), &mut self.state, mark) };
        self.reached(answer)
    }

    /// The next vertex of the open ring.
    pub fn add_vertex(&mut self, vertex: Vertex) -> Result<&mut Self, Refusal> {
        let [x, y, z] = vertex.map(f64::to_bits);
        // SAFETY: as above.
        let answer = unsafe { foreign::chaloenpik_area_add_vertex(self.out.as_mut_ptr(), self.out.len(), &mut self.state, x, y, z) };
        self.reached(answer)
    }

    /// Closes the open ring, with the bytes that are kept of it. Refused 25: it has fewer than three vertices.
    pub fn close_ring(&mut self, kept: &[u8; RING_KEPT]) -> Result<&mut Self, Refusal> {
        // SAFETY: as above; the kept bytes are only read.
        let answer = unsafe { foreign::chaloenpik_area_close_ring(self.out.as_mut_ptr(), self.out.len(), &mut self.state, kept) };
        self.reached(answer)
    }

    /// Finishes the area, with the bytes that are kept of it, and gives its body, which stands in front of the buffer.
    ///
    /// Refused 13: a ring is open; 25: there is none. The writer is consumed then too, and what it wrote is no area.
    pub fn finish(mut self, kept: &[u8; AREA_KEPT]) -> Result<&'b [u8], Refusal> {
        // SAFETY: as above.
        let answer = unsafe { foreign::chaloenpik_area_finish(self.out.as_mut_ptr(), self.out.len(), &mut self.state, kept) };
        self.reached(answer)?;
        written(self.out, self.position)
    }

    fn reached(&mut self, answer: u64) -> Result<&mut Self, Refusal> {
        self.position = found(answer)?;
        Ok(self)
    }
}
