//! Makes a failing case small: parts are left out and words made smaller as long as it still fails.

/// Leaves out runs of `unit` items, long runs first, as long as the rest still fails.
pub fn drop_parts<T: Clone>(items: &mut Vec<T>, unit: usize, fails: &mut dyn FnMut(&[T]) -> bool) {
    let mut run = (items.len() / 2).next_multiple_of(unit).max(unit);
    loop {
        let mut at = 0;
        while at < items.len() {
            let mut rest = items.clone();
            rest.drain(at..items.len().min(at + run));
            if fails(&rest) {
                *items = rest;
            } else {
                at += run;
            }
        }
        if run == unit {
            break;
        }
        run = (run / 2).next_multiple_of(unit).max(unit);
    }
}

/// Makes each word small: 0, 1, half of it, a sixteenth less, one less.
pub fn lower_words(words: &mut [u32], fails: &mut dyn FnMut(&[u32]) -> bool) {
    for i in 0..words.len() {
        for _ in 0..200 {
            let old = words[i];
            let smaller = [0, 1, old / 2, old - old / 16, old.saturating_sub(1)];
            let found = smaller.into_iter().filter(|&w| w < old).find(|&w| {
                words[i] = w;
                fails(words)
            });
            match found {
                Some(w) => words[i] = w,
                None => {
                    words[i] = old;
                    break;
                }
            }
        }
    }
}

/// Does the passes until none makes the case smaller, by this size; a pass that is refused leaves the case as it was.
pub fn until_still<C>(case: &mut C, size: impl Fn(&C) -> u64, mut pass: impl FnMut(&mut C)) {
    loop {
        let before = size(case);
        pass(case);
        if size(case) >= before {
            break;
        }
    }
}
