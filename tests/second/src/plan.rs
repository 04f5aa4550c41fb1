//! Document 01, "Plan", and from "Refusal numbers" the check of a plan held as a value.

/// The most slots a frame may have.
pub const MOST_SLOTS: usize = 64;
/// The most clients a plan may have.
pub const MOST_CLIENTS: usize = 8;

/// One of the refusal numbers 1 to 18.
pub type Refusal = u8;

/// What one client requires: the rate p/q and the latency a/b in slots, both kept as given.
#[derive(Clone, Copy, Debug, Default, PartialEq, Eq)]
pub struct Client {
    pub p: u16,
    pub q: u16,
    pub a: u16,
    pub b: u16,
}

/// A plan held as a value. It may be faulty in any way until it has been checked.
#[derive(Clone, Debug, PartialEq, Eq)]
pub struct Plan {
    /// The frame length.
    pub f: u16,
    /// The client count.
    pub n: u16,
    /// The requirements of clients 1 to 8; places past n are ignored.
    pub clients: [Client; MOST_CLIENTS],
    /// The owners of slots 0 to 63, 0 for idle; places past f are ignored.
    pub owners: [u8; MOST_SLOTS],
}

impl Client {
    /// Refusals 8 and 9, in this order.
    pub fn check(&self) -> Result<(), Refusal> {
        if self.p == 0 || self.q == 0 || self.p > self.q {
            return Err(8);
        }
        if self.b == 0 {
            return Err(9);
        }
        Ok(())
    }
}

impl Plan {
    /// A plan with every number 0.
    pub fn zero() -> Plan {
        Plan { f: 0, n: 0, clients: [Client::default(); MOST_CLIENTS], owners: [0; MOST_SLOTS] }
    }

    /// Refusals 5 and 6, then 8 and 9 client by client: all that the search checks of a plan.
    pub fn check_requirements(&self) -> Result<(), Refusal> {
        if self.f < 1 || self.f > 64 {
            return Err(5);
        }
        if self.n < 1 || self.n > 8 {
            return Err(6);
        }
        for client in self.used_clients() {
            client.check()?;
        }
        Ok(())
    }

    /// The same, then refusal 10 slot by slot: what all else that takes a plan checks first.
    pub fn check(&self) -> Result<(), Refusal> {
        self.check_requirements()?;
        for owner in self.used_owners() {
            if u16::from(*owner) > self.n {
                return Err(10);
            }
        }
        Ok(())
    }

    /// Clients 1 to n. Only for an n that is not above 8.
    pub fn used_clients(&self) -> &[Client] {
        &self.clients[..usize::from(self.n)]
    }

    /// The owners of slots 0 to f - 1. Only for an f that is not above 64.
    pub fn used_owners(&self) -> &[u8] {
        &self.owners[..usize::from(self.f)]
    }

    /// The requirements of one client, by its number from 1 on.
    pub fn client(&self, client: u8) -> &Client {
        &self.clients[usize::from(client) - 1]
    }
}
