//! Document 01, "Plan stream", and from "Refusal numbers" the reading and writing of one.

use crate::plan::{Client, Plan, Refusal};

/// A refused read: the number and the offset it is given with.
#[derive(Clone, Copy, Debug, PartialEq, Eq)]
pub struct RefusedRead {
    pub number: Refusal,
    pub offset: usize,
}

/// What has been read so far, record by record.
struct Reader {
    plan: Plan,
    head_read: bool,
    clients_read: usize,
    slots_read: usize,
}

/// The length of the body of a known kind; none for a reserved kind.
fn body_length(kind: u8) -> Option<usize> {
    match kind {
        1 => Some(2),
        2 => Some(9),
        3 => Some(8),
        9 => Some(0),
        _ => None,
    }
}

/// The two-byte number at a place in a body, the high byte first.
fn number_at(body: &[u8], place: usize) -> u16 {
    u16::from(body[place]) * 256 + u16::from(body[place + 1])
}

impl Reader {
    /// The kind that is due now.
    fn due(&self) -> u8 {
        if !self.head_read {
            1
        } else if self.clients_read < usize::from(self.plan.n) {
            2
        } else if self.slots_read < usize::from(self.plan.f) {
            3
        } else {
            9
        }
    }

    /// The fields of kind 1: f, then n.
    fn head(&mut self, body: &[u8]) -> Result<(), Refusal> {
        if body[0] < 1 || body[0] > 64 {
            return Err(5);
        }
        if body[1] < 1 || body[1] > 8 {
            return Err(6);
        }
        self.plan.f = u16::from(body[0]);
        self.plan.n = u16::from(body[1]);
        self.head_read = true;
        Ok(())
    }

    /// The fields of kind 2: the client number, then p, q, a, b.
    fn client(&mut self, body: &[u8]) -> Result<(), Refusal> {
        if usize::from(body[0]) != self.clients_read + 1 {
            return Err(7);
        }
        let client = Client {
            p: number_at(body, 1),
            q: number_at(body, 3),
            a: number_at(body, 5),
            b: number_at(body, 7),
        };
        client.check()?;
        self.plan.clients[self.clients_read] = client;
        self.clients_read += 1;
        Ok(())
    }

    /// The eight places of kind 3, left to right.
    fn owners(&mut self, body: &[u8]) -> Result<(), Refusal> {
        for place in body {
            if self.slots_read < usize::from(self.plan.f) {
                if u16::from(*place) > self.plan.n {
                    return Err(10);
                }
                self.plan.owners[self.slots_read] = *place;
                self.slots_read += 1;
            } else if *place != 255 {
                return Err(11);
            }
        }
        Ok(())
    }

    /// One record at an offset; gives its kind and its whole length, or the refusal number.
    fn record(&mut self, stream: &[u8], offset: usize) -> Result<(u8, usize), Refusal> {
        let Some(&kind) = stream.get(offset) else {
            return Err(1);
        };
        let Some(length) = body_length(kind) else {
            return Err(2);
        };
        if kind != self.due() {
            return Err(3);
        }
        let Some(body) = stream.get(offset + 1..offset + 1 + length) else {
            return Err(1);
        };
        match kind {
            1 => self.head(body)?,
            2 => self.client(body)?,
            3 => self.owners(body)?,
            _ => {}
        }
        Ok((kind, 1 + length))
    }
}

/// Reads a plan stream, record by record.
pub fn read(stream: &[u8]) -> Result<Plan, RefusedRead> {
    let mut reader =
        Reader { plan: Plan::zero(), head_read: false, clients_read: 0, slots_read: 0 };
    let mut offset = 0;
    loop {
        match reader.record(stream, offset) {
            Err(number) => return Err(RefusedRead { number, offset }),
            Ok((kind, length)) => {
                offset += length;
                if kind == 9 {
                    break;
                }
            }
        }
    }
    if offset < stream.len() {
        return Err(RefusedRead { number: 4, offset });
    }
    Ok(reader.plan)
}

/// The stream of a plan that has been checked.
pub fn stream_of(plan: &Plan) -> Vec<u8> {
    let mut stream = vec![1, plan.f as u8, plan.n as u8];
    for (index, client) in plan.used_clients().iter().enumerate() {
        stream.extend([2, index as u8 + 1]);
        for number in [client.p, client.q, client.a, client.b] {
            stream.extend([(number / 256) as u8, (number % 256) as u8]);
        }
    }
    for row in plan.used_owners().chunks(8) {
        let mut places = [255; 8];
        places[..row.len()].copy_from_slice(row);
        stream.push(3);
        stream.extend(places);
    }
    stream.push(9);
    stream
}

/// Writes a plan into a lent output, touching only as many bytes as the stream has.
pub fn write(plan: &Plan, output: &mut [u8]) -> Result<(), Refusal> {
    plan.check()?;
    let stream = stream_of(plan);
    if output.len() < stream.len() {
        return Err(12);
    }
    output[..stream.len()].copy_from_slice(&stream);
    Ok(())
}

#[cfg(test)]
mod tests {
    use super::*;

    /// The smallest and the largest plan, each with as many bytes as "Plan stream" says.
    #[test]
    fn lengths() {
        let client = Client { p: 1, q: 2, a: 3, b: 4 };
        for (f, n, length) in [(1, 1, 23), (64, 8, 156), (8, 2, 33), (9, 2, 42)] {
            let mut plan = Plan::zero();
            plan.f = f;
            plan.n = n;
            for index in 0..usize::from(n) {
                plan.clients[index] = client;
            }
            let stream = stream_of(&plan);
            assert_eq!(stream.len(), length);
            assert_eq!(read(&stream), Ok(plan));
        }
    }

    /// Offset of a missing kind byte, of a short body and of a byte too many.
    #[test]
    fn offsets() {
        let refused = |number, offset| Err(RefusedRead { number, offset });
        assert_eq!(read(&[]), refused(1, 0));
        assert_eq!(read(&[1, 0]), refused(1, 0));
        assert_eq!(read(&[1, 0, 0]), refused(5, 0));
        assert_eq!(read(&[1, 1, 1]), refused(1, 3));
        assert_eq!(read(&[1, 1, 1, 3]), refused(3, 3));
    }
}
