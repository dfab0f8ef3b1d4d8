//! Pages that were read lately.

use std::collections::{HashMap, VecDeque};
use std::sync::{Arc, Mutex, PoisonError};

use super::pages::PAGE_LEN;

/// Which volume of an archive, and which of its pages.
pub(crate) type Key = (usize, usize);

/// Pages up to a number of bytes. The one that came first goes first.
#[derive(Debug)]
pub(crate) struct Cache {
    most: usize,
    held: Mutex<Held>,
}

#[derive(Debug, Default)]
struct Held {
    pages: HashMap<Key, Arc<Vec<u8>>>,
    order: VecDeque<Key>,
}

impl Cache {
    /// A cache of so many bytes, rounded down to whole pages.
    pub(crate) fn new(bytes: usize) -> Cache {
        Cache {
            most: bytes / PAGE_LEN,
            held: Mutex::default(),
        }
    }

    /// A page that is held, or else one that is read and held from now on. Nobody waits for others
    /// who read: two may read the same page at the same time, and then hold one of the two.
    pub(crate) fn get_or_read<E>(
        &self,
        key: Key,
        read: impl FnOnce() -> Result<Vec<u8>, E>,
    ) -> Result<Arc<Vec<u8>>, E> {
        if let Some(page) = self.held().pages.get(&key) {
            return Ok(Arc::clone(page));
        }
        let page = Arc::new(read()?);
        self.put(key, Arc::clone(&page));
        Ok(page)
    }

    fn put(&self, key: Key, page: Arc<Vec<u8>>) {
        if self.most == 0 {
            return;
        }
        let mut held = self.held();
        if held.pages.insert(key, page).is_some() {
            return;
        }
        held.order.push_back(key);
        if held.order.len() > self.most {
            if let Some(first) = held.order.pop_front() {
                held.pages.remove(&first);
            }
        }
    }

    /// No code under the lock can panic half-way, so a poisoned lock guards sound pages.
    fn held(&self) -> std::sync::MutexGuard<'_, Held> {
        self.held.lock().unwrap_or_else(PoisonError::into_inner)
    }
}

#[cfg(test)]
mod tests {
    use super::*;

    /// Asks for a page, and answers whether it had to be read.
    fn is_read(cache: &Cache, key: Key) -> bool {
        let mut is_read = false;
        let page = cache.get_or_read(key, || {
            is_read = true;
            Ok::<_, ()>(vec![key.1 as u8; 3])
        });
        assert_eq!(*page.unwrap(), [key.1 as u8; 3]);
        is_read
    }

    #[test]
    fn no_more_is_held_than_fits() {
        let cache = Cache::new(3 * PAGE_LEN + 5);
        for page in 0..10 {
            assert!(is_read(&cache, (0, page)));
            assert!(!is_read(&cache, (0, page)));
            assert!(cache.held().pages.len() <= 3);
        }
        for page in 7..10 {
            assert!(!is_read(&cache, (0, page)));
        }
        assert!(is_read(&cache, (1, 9)));
        assert!(is_read(&cache, (0, 7)));
    }

    #[test]
    fn a_cache_without_room_holds_nothing() {
        let cache = Cache::new(PAGE_LEN - 1);
        assert!(is_read(&cache, (0, 0)));
        assert!(is_read(&cache, (0, 0)));
        assert!(cache.held().pages.is_empty());
    }

    #[test]
    fn a_failure_is_not_held() {
        let cache = Cache::new(PAGE_LEN);
        let failed = cache.get_or_read((0, 0), || Err::<Vec<u8>, _>("failed"));
        assert_eq!(failed.unwrap_err(), "failed");
        assert!(is_read(&cache, (0, 0)));
    }
}
