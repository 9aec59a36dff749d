//! Areas: read, turned and written, held against bytes that are put together here.

use chaloenpik::{turn_holes, Area, AreaWriter, Cause, Field, Refusal, Ring, Table, Value, Vertex, AREA_KEPT, RING_KEPT};

const REPLY: &[u8] = include_bytes!("../../../samples/4-areas.bin");

/// An area by the number of vertices of each ring. No two of its marks, kept bytes and numbers are alike.
fn body(rings: &[usize]) -> Vec<u8> {
    let mut body = vec![0, 1, u8::from(rings.len() > 1)];
    body.extend((rings.len() as u32).to_be_bytes());
    for (ring, &vertices) in rings.iter().enumerate() {
        body.push(100 + ring as u8);
        body.extend((vertices as u32).to_be_bytes());
        for vertex in 0..vertices {
            body.extend(corner(ring, vertex).map(f64::to_be_bytes).concat());
        }
        body.extend([10 + ring as u8; RING_KEPT]);
    }
    body.extend([9; AREA_KEPT]);
    body
}

fn corner(ring: usize, vertex: usize) -> Vertex {
    [0.25, 0.5, 0.75].map(|part| (10 * ring + vertex) as f64 + part)
}

/// The places of the first ring and of its vertex count.
const FIRST: usize = 7;
const VERTEX_COUNT: usize = 8;

fn refused(body: &[u8]) -> (Cause, usize) {
    let refusal = Area::new(body).unwrap_err();
    (refusal.cause, refusal.place)
}

fn with(body: &[u8], at: usize, bytes: &[u8]) -> Vec<u8> {
    let mut changed = body.to_vec();
    changed[at..at + bytes.len()].copy_from_slice(bytes);
    changed
}

const PAST_END: Refusal = Refusal { cause: Cause::PastEnd, place: 0 };

#[test]
fn an_area_says_its_rings() -> Result<(), Refusal> {
    let body = body(&[4, 3, 5]);
    let area = Area::new(&body)?;
    assert_eq!((area.rings(), area.leading(), area.body()), (3, [0, 1], &body[..]));
    let second = FIRST + 5 + 4 * 24 + 38;
    assert_eq!(area.ring(0), Ok(Ring { place: FIRST, mark: 100, vertices: 4 }));
    assert_eq!(area.ring(1), Ok(Ring { place: second, mark: 101, vertices: 3 }));
    for (ring, vertices) in [4, 3, 5].into_iter().enumerate() {
        assert_eq!(area.vertices(ring)?.len(), vertices);
        for (vertex, shown) in area.vertices(ring)?.enumerate() {
            assert_eq!(area.vertex(ring, vertex), Ok(corner(ring, vertex)));
            assert_eq!(shown, corner(ring, vertex));
        }
        assert_eq!(area.vertex(ring, vertices), Err(PAST_END));
        assert_eq!(area.ring_kept(ring), Ok(&[10 + ring as u8; RING_KEPT]));
    }
    assert_eq!(area.kept(), Ok(&[9; AREA_KEPT]));
    assert_eq!(area.kept()?.as_ptr(), body[body.len() - AREA_KEPT..].as_ptr());
    assert_eq!(area.ring(3), Err(PAST_END));
    assert_eq!(area.vertices(3).map(|_| ()), Err(PAST_END));
    assert_eq!(area.vertex(3, 0), Err(PAST_END));
    assert_eq!(area.ring_kept(usize::MAX), Err(PAST_END));
    Ok(())
}

#[test]
fn every_byte_has_one_owner() -> Result<(), Refusal> {
    let body = body(&[3, 4]);
    let area = Area::new(&body)?;
    let list = area.fields()?;
    let mut next = 0;
    for (number, field) in list.iter().enumerate() {
        assert_eq!(field.offset, next);
        next = field.place().end;
        assert_eq!(area.owner(field.offset), Ok(number));
        assert_eq!(area.owner(next - 1), Ok(number));
    }
    assert_eq!(next, body.len());
    assert_eq!(area.owner(next), Err(PAST_END));

    let counts = (Field::AREA_EDITION..=Field::AREA_KEPT).map(|number| list.iter().filter(|field| field.number == number).count());
    assert_eq!(counts.collect::<Vec<_>>(), [1, 1, 1, 1, 2, 2, 21, 2, 1]);
    let last_number = list.iter().rfind(|field| field.number == Field::COORDINATE).unwrap();
    assert_eq!((last_number.size, last_number.indices), (8, [1, 3, 2]));
    Ok(())
}

/// Every place of a refusal is the first byte of a field.
#[test]
fn a_body_that_is_cut_has_no_room() -> Result<(), Refusal> {
    let body = body(&[3, 4]);
    let starts: Vec<usize> = Area::new(&body)?.fields()?.iter().map(|field| field.offset).collect();
    for size in 0..body.len() {
        let (cause, place) = refused(&body[..size]);
        assert_eq!(cause, Cause::NoRoom);
        assert_eq!(Some(&place), starts.iter().rfind(|&&start| start <= size));
    }
    assert_eq!(refused(&[body.clone(), vec![0]].concat()), (Cause::LeftOver, body.len()));
    Ok(())
}

#[test]
fn counts_and_the_third_byte() {
    let (one, two) = (body(&[3]), body(&[3, 3]));
    assert_eq!(refused(&with(&one, 2, &[2])), (Cause::BadGeography, 2));
    assert_eq!(refused(&with(&one, 2, &[1])), (Cause::BadGeography, 2));
    assert_eq!(refused(&with(&two, 2, &[0])), (Cause::BadGeography, 2));
    assert_eq!(refused(&with(&one, 2, &[1, 0, 0, 0, 0])), (Cause::BadGeography, 3)); // the count's own fault comes first
    assert_eq!(refused(&with(&one, 3, &[255; 4])), (Cause::Negative, 3));
    assert_eq!(refused(&with(&one, VERTEX_COUNT, &[128, 0, 0, 0])), (Cause::Negative, VERTEX_COUNT));
    assert_eq!(refused(&with(&one, VERTEX_COUNT, &[0, 0, 0, 2])), (Cause::BadGeography, VERTEX_COUNT));
    // Too large a count ends where a field doesn't fit any more.
    let room = (one.len() - FIRST - 5) / 8 * 8;
    assert_eq!(refused(&with(&one, VERTEX_COUNT, &[127, 255, 255, 255])), (Cause::NoRoom, FIRST + 5 + room));
    // The 33 bytes behind the last ring are then read as one more: its mark 9, and a count of the bytes 9.
    assert_eq!(refused(&with(&two, 3, &[127, 255, 255, 255])), (Cause::NoRoom, two.len() - AREA_KEPT + 5 + 24));
}

#[test]
fn numbers_keep_every_bit() -> Result<(), Refusal> {
    let bits = [0x7ff4_0000_0000_0001, 0xfff8_0000_0000_0000, 0x8000_0000_0000_0000, 1, u64::MAX, 0, 0x7ff0_0000_0000_0000, 2, 3];
    let vertices: Vec<Vertex> = bits.chunks(3).map(|axes| [0, 1, 2].map(|axis| f64::from_bits(axes[axis]))).collect();
    let mut out = [0; 200];
    let mut w = AreaWriter::begin(&mut out, 255, 254)?;
    w.ring(253, vertices, &[252; RING_KEPT])?;
    let area = Area::new(w.finish(&[251; AREA_KEPT])?)?;
    let read: Vec<u64> = (0..3).flat_map(|vertex| area.vertex(0, vertex).unwrap()).map(f64::to_bits).collect();
    assert_eq!(read, bits);
    assert!(area.vertices(0)?.flatten().map(f64::to_bits).eq(bits));
    assert_eq!((area.leading(), area.ring(0)?.mark), ([255, 254], 253));
    Ok(())
}

#[test]
fn holes_are_turned_and_turned_back() -> Result<(), Refusal> {
    let body = body(&[4, 3, 6]);
    let mut turned = body.clone();
    assert_eq!(turn_holes(&mut turned), Ok(3));
    let (was, is) = (Area::new(&body)?, Area::new(&turned)?);
    assert!(is.vertices(0)?.eq(was.vertices(0)?));
    for (ring, order) in [(1, &[0, 2, 1][..]), (2, &[0, 5, 4, 3, 2, 1])] {
        assert!(is.vertices(ring)?.eq(order.iter().map(|&vertex| corner(ring, vertex))));
        assert_eq!((is.ring(ring), is.ring_kept(ring)), (was.ring(ring), was.ring_kept(ring)));
    }
    assert_eq!(is.kept(), was.kept());
    assert_eq!(turn_holes(&mut turned), Ok(3));
    assert_eq!(turned, body);

    let mut longer = [body.clone(), vec![0]].concat();
    assert_eq!(turn_holes(&mut longer), Err(Refusal { cause: Cause::LeftOver, place: body.len() }));
    assert_eq!(longer[..body.len()], body);
    Ok(())
}

/// An area, copied from what is read.
#[test]
fn an_area_is_copied() -> Result<(), Refusal> {
    for rings in [&[3][..], &[3, 3], &[30, 4, 5, 3]] {
        let body = body(rings);
        let area = Area::new(&body)?;
        let mut out = vec![7; body.len() + 1];
        let [edition, internal] = area.leading();
        let mut w = AreaWriter::begin(&mut out, edition, internal)?;
        for ring in 0..area.rings() {
            w.ring(area.ring(ring)?.mark, area.vertices(ring)?, area.ring_kept(ring)?)?;
        }
        assert_eq!(w.position(), body.len() - AREA_KEPT);
        assert_eq!(w.finish(area.kept()?)?, body);
        assert_eq!(out[body.len()], 7);
    }
    Ok(())
}

#[test]
fn refused_steps_change_nothing() -> Result<(), Refusal> {
    let kept = [10; RING_KEPT];
    let wanted = body(&[3]);
    let mut out = vec![0; wanted.len()];
    let refusal = |cause, place| Some(Refusal { cause, place });
    assert_eq!(AreaWriter::begin(&mut out[..6], 0, 1).err(), refusal(Cause::ShortOutput, 7));
    assert_eq!(AreaWriter::begin(&mut out, 0, 1)?.finish(&[9; AREA_KEPT]).err(), refusal(Cause::BadGeography, 7));

    let mut w = AreaWriter::begin(&mut out, 0, 1)?;
    assert_eq!(w.add_vertex(corner(0, 0)).err(), refusal(Cause::WrongStage, 7));
    assert_eq!(w.close_ring(&kept).err(), refusal(Cause::WrongStage, 7));
    assert_eq!(w.ring(0, [corner(0, 0); 2], &kept).err(), refusal(Cause::BadGeography, 60));
    assert_eq!(w.ring(0, [corner(0, 0); 9], &kept).err(), refusal(Cause::ShortOutput, 12 + 6 * 24));
    assert_eq!(w.position(), 7);
    w.open_ring(100)?;
    assert_eq!(w.open_ring(100).err(), refusal(Cause::WrongStage, 12));
    w.add_vertex(corner(0, 0))?.add_vertex(corner(0, 1))?;
    assert_eq!(w.close_ring(&kept).err(), refusal(Cause::BadGeography, 60));
    w.add_vertex(corner(0, 2))?.close_ring(&kept)?;
    assert_eq!(w.ring(0, [corner(0, 0); 3], &kept).err(), refusal(Cause::ShortOutput, 122 + 5 + 2 * 24));
    assert_eq!(w.finish(&[9; AREA_KEPT])?, wanted);

    let mut w = AreaWriter::begin(&mut out[..wanted.len() - 1], 0, 1)?;
    w.ring(100, [0, 1, 2].map(|vertex| corner(0, vertex)), &kept)?;
    assert_eq!(w.finish(&[9; AREA_KEPT]).err(), refusal(Cause::ShortOutput, wanted.len()));
    Ok(())
}

#[test]
fn what_is_open_can_t_be_finished() -> Result<(), Refusal> {
    let mut out = [0; 200];
    let mut w = AreaWriter::begin(&mut out, 0, 1)?;
    w.open_ring(0)?;
    assert_eq!(w.finish(&[0; AREA_KEPT]), Err(Refusal { cause: Cause::WrongStage, place: 12 }));
    Ok(())
}

/// A message accepts any geography that isn't empty; what it says inside is another question.
#[test]
fn the_sample_s_areas() -> Result<(), Refusal> {
    let table = Table::new(REPLY, 0)?;
    let mut rings = Vec::new();
    for row in table.rows() {
        rings.push(match row.get("AREA")?.value {
            Value::Geography(Some(body)) => Area::new(body).map(|area| Some(area.rings())),
            _ => Ok(None),
        });
    }
    assert_eq!(rings, [Ok(Some(2)), Ok(Some(1)), Ok(None), Err(Refusal { cause: Cause::BadGeography, place: 2 })]);
    Ok(())
}
