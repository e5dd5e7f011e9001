//! A plain linker in safe Rust, to compare the proved one with: same answers, same image.

use std::collections::HashMap;

const MOST_OBJECTS: usize = 256;
const MOST_ROW: usize = 16_777_216;
const MOST_WORDS: u32 = 4096;

/// An image of so many words; and so many words have the units.
#[derive(Clone, Copy, Debug, PartialEq, Eq)]
pub struct Image {
    pub size: usize,
    pub words: usize,
}

/// Why objects do not link.
#[derive(Clone, Copy, Debug, PartialEq, Eq)]
pub enum Refusal {
    NoSpace,
    NoObjects,
    Twice,
    Missing,
}

/// An object of a row, and where its code and its words come to lie.
struct Object<'a> {
    name: u32,
    words: u32,
    wants: &'a [[u32; 3]],
    offers: &'a [[u32; 3]],
    code: &'a [u32],
    fits: &'a [[u32; 3]],
    code_at: u32,
    words_at: u32,
}

/// The next `count` items of three words each.
fn take_threes<'a>(row: &mut &'a [u32], count: u32) -> Option<&'a [[u32; 3]]> {
    let words = row.split_off(..3 * count as usize)?;
    Some(words.as_chunks().0)
}

impl<'a> Object<'a> {
    /// Reads the object at the front of a row.
    fn read(row: &mut &'a [u32], code_at: u32, words_at: u32) -> Option<Object<'a>> {
        let &[name, words, wants, offers, code, fits] = row.split_off(..6)? else {
            return None;
        };
        let object = Object {
            name,
            words,
            wants: take_threes(row, wants)?,
            offers: take_threes(row, offers)?,
            code: row.split_off(..code as usize)?,
            fits: take_threes(row, fits)?,
            code_at,
            words_at,
        };
        object.is_sound().then_some(object)
    }

    /// Whether the object keeps to its limits.
    fn is_sound(&self) -> bool {
        let in_code = |at: u32| (at as usize) < self.code.len();
        self.words <= MOST_WORDS
            && self.offers.iter().all(|&[_, _, at]| in_code(at))
            && self.fits.iter().all(|&[at, kind, want]| in_code(at) && (kind < 2 || kind == 2 && (want as usize) < self.wants.len()))
    }

    /// Where a procedure with so many arguments begins in the image, if it is offered.
    fn begin_of(&self, proc: u32, args: u32) -> Option<u32> {
        let &[_, _, at] = self.offers.iter().find(|offer| offer[0] == proc && offer[1] == args)?;
        Some(self.code_at + at)
    }
}

/// Reads all objects of a row.
fn read_objects(mut row: &[u32]) -> Option<Vec<Object<'_>>> {
    if row.len() > MOST_ROW {
        return None;
    }
    let mut objects: Vec<Object> = Vec::new();
    let (mut code_at, mut words_at) = (4, 0);
    while !row.is_empty() {
        if objects.len() == MOST_OBJECTS {
            return None;
        }
        let object = Object::read(&mut row, code_at, words_at)?;
        code_at += object.code.len() as u32;
        words_at += object.words;
        objects.push(object);
    }
    Some(objects)
}

/// The objects by their names; none where two have one name.
fn directory<'t, 'a>(objects: &'t [Object<'a>]) -> Option<HashMap<u32, &'t Object<'a>>> {
    let by_name: HashMap<u32, &Object> = objects.iter().map(|object| (object.name, object)).collect();
    (by_name.len() == objects.len()).then_some(by_name)
}

/// Fits an object's code; `places` are those of its wants.
fn fit(object: &Object, places: &[u32], code: &mut [u32]) {
    for &[at, kind, want] in object.fits {
        let word = &mut code[at as usize];
        *word = match kind {
            0 => word.wrapping_add(object.code_at),
            1 => word.wrapping_add(object.words_at),
            _ => places[want as usize],
        };
    }
}

/// Links the objects of a row. The image stands first in its words; what is refused leaves them as they were.
pub fn link(row: &[u32], image: &mut [u32]) -> Result<Image, Refusal> {
    if image.len() < 4 + row.len() {
        return Err(Refusal::NoSpace);
    }
    let objects = read_objects(row).ok_or(Refusal::NoObjects)?;
    let by_name = directory(&objects).ok_or(Refusal::Twice)?;
    let entry = objects.first().and_then(|first| first.begin_of(0, 0)).ok_or(Refusal::Missing)?;
    let wants = objects.iter().flat_map(|object| object.wants);
    let places: Option<Vec<u32>> = wants.map(|&[unit, proc, args]| by_name.get(&unit)?.begin_of(proc, args)).collect();
    let places = places.ok_or(Refusal::Missing)?;

    image[..4].copy_from_slice(&[8, entry, 0, 1]);
    let mut at = 4;
    let mut places = places.as_slice();
    for object in &objects {
        let (own, rest) = places.split_at(object.wants.len());
        let code = &mut image[at..at + object.code.len()];
        code.copy_from_slice(object.code);
        fit(object, own, code);
        at += object.code.len();
        places = rest;
    }
    Ok(Image { size: at, words: objects.iter().map(|object| object.words as usize).sum() })
}
