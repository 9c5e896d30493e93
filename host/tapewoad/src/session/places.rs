//! Which rows requests have.
use crate::calls::Store;
use crate::models::RequestId;

/// The rows of the latest submissions, which spare the library a second search.
/// A request keeps its row as long as there is a report of it.
pub(super) struct Places(Box<[Option<Place>]>);

#[derive(Clone, Copy)]
struct Place {
    id: RequestId,
    row: u64,
}

impl Places {
    pub fn new() -> Self {
        Self(vec![None; Store::ROWS].into())
    }

    pub fn note(&mut self, id: RequestId, row: u64) {
        self.0[index(id)] = Some(Place { id, row });
    }

    pub fn row(&self, id: RequestId) -> Option<u64> {
        let place = self.0[index(id)]?;
        (place.id == id).then_some(place.row)
    }

    pub fn forget(&mut self) {
        self.0.fill(None);
    }
}

fn index(id: RequestId) -> usize {
    id.sequence as usize % Store::ROWS
}

#[cfg(test)]
mod tests {
    use super::*;

    fn id(session: u64, sequence: u64) -> RequestId {
        RequestId {
            session,
            generation: 0,
            sequence,
        }
    }

    #[test]
    fn a_row_is_known_until_a_later_request_takes_its_place() {
        let mut places = Places::new();
        assert_eq!(places.row(id(0, 0)), None);
        places.note(id(1, 7), 3);
        assert_eq!(places.row(id(1, 7)), Some(3));
        assert_eq!(places.row(id(2, 7)), None);
        let later = id(1, 7 + Store::ROWS as u64);
        assert_eq!(places.row(later), None);
        places.note(later, 4);
        assert_eq!((places.row(id(1, 7)), places.row(later)), (None, Some(4)));
        places.forget();
        assert_eq!(places.row(later), None);
    }
}
