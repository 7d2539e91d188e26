//! The reference as the host's library, to test the tests with. With `--cfg fault="NAME"` it is wrong in one way.

use reference::host::{self, Call};

/// # Safety
/// The pointers are to buffers of these lengths, which do not overlap.
#[unsafe(no_mangle)]
pub unsafe extern "C" fn route_book_safest(
    image: *const u8,
    image_len: usize,
    output: *mut u8,
    output_len: usize,
    from: u32,
    to: u32,
    rate: u32,
    mode: u32,
) -> u32 {
    let (image, output) =
        unsafe { (std::slice::from_raw_parts(image, image_len), std::slice::from_raw_parts_mut(output, output_len)) };
    let call = Call { output_len, from, to, rate, mode };
    #[cfg(fault = "mode")]
    let call = Call { mode: mode & 255, ..call };
    #[cfg(fault = "both")]
    let call = Call { mode: if mode == 1 { 2 } else { mode }, ..call };
    #[cfg(fault = "rate")]
    let call = Call { rate: if rate > 1_000_000 { 1_000_000 } else { rate }, ..call };
    #[cfg(fault = "next_rate")]
    let call = Call { rate: if rate < 1_000_000 { rate + 1 } else { rate }, ..call };
    #[cfg(fault = "room")]
    let call = Call { output_len: output_len.max(516), ..call };
    #[cfg(fault = "order")]
    if (1..=2).contains(&mode) && !(1..=1_000_000).contains(&rate) {
        return 14;
    }
    #[cfg(fault = "scribble")]
    output.iter_mut().for_each(|byte| *byte = 0);
    let found = host::safest(image, call);
    let (_book, answer) = match found {
        Ok(found) => found,
        #[cfg(fault = "names")]
        Err(3) => return 0,
        #[cfg(fault = "tail")]
        Err(8) => return 16,
        Err(number) => return number,
    };
    #[cfg(any(fault = "cost", fault = "same", fault = "greedy", fault = "loop"))]
    let mut answer = answer;
    #[cfg(fault = "cost")]
    {
        answer.cost.total += 1;
    }
    // The first route twice, where that carries.
    #[cfg(fault = "same")]
    {
        let twice = [answer.pair[0].clone(), answer.pair[0].clone()];
        let mode = host::mode(mode).unwrap();
        if let Ok(cost) = _book.try_pair(from, to, rate, mode, &twice) {
            answer.pair = twice;
            answer.cost = cost;
        }
    }
    // A shortest route, then one that avoids it.
    #[cfg(fault = "greedy")]
    {
        let first = shortest(&_book, from, to, rate, &[]).unwrap();
        let second = shortest(&_book, from, to, rate, &first).unwrap_or_else(|| first.clone());
        answer.pair = [first, second];
        match _book.try_pair(from, to, rate, host::mode(mode).unwrap(), &answer.pair) {
            Ok(cost) => answer.cost = cost,
            Err(_) => return 16,
        }
    }
    #[cfg(fault = "loop")]
    answer.pair[1].reverse();
    let bytes = host::written(&answer);
    if bytes.len() > output.len() {
        return 15;
    }
    output[..bytes.len()].copy_from_slice(&bytes);
    #[cfg(fault = "behind")]
    if let Some(byte) = output.get_mut(bytes.len()) {
        *byte = 0;
    }
    0
}

#[cfg(fault = "greedy")]
fn shortest(book: &reference::book::Book, from: u32, to: u32, rate: u32, avoided: &[u16]) -> Option<Vec<u16>> {
    let mut routes: Vec<Option<Vec<u16>>> = vec![None; book.network.places];
    routes[from as usize] = Some(Vec::new());
    for _ in 1..book.network.places {
        let before = routes.clone();
        for (number, circuit) in book.network.circuits.iter().enumerate() {
            let number = number as u16;
            let usable = circuit.bandwidth >= rate && !avoided.contains(&number);
            if let (true, Some(route), None) = (usable, &before[circuit.from as usize], &routes[circuit.to as usize]) {
                routes[circuit.to as usize] = Some([&route[..], &[number]].concat());
            }
        }
    }
    routes[to as usize].clone()
}
