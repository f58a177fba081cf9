//! Cylinder, head and sector: document 01, "Steps of each function", 02h and 03h. Only numbers of 32 bits are divided (2026-05).

/// C, H and S of the table, 1 to 1024, 1 to 255 and 1 to 63.
#[derive(Clone, Copy)]
pub struct Geometry {
    pub cylinders: u32,
    pub heads: u32,
    pub sectors: u32,
}

#[derive(Clone, Copy, PartialEq, Eq, Debug)]
pub struct Address {
    pub cylinder: u32,
    pub head: u32,
    pub sector: u32,
}

impl Geometry {
    /// "Either way round, C, H or S outside the table's limits is 04h": both routines ask this first, and after it no product is
    /// above 1024 x 255 x 63.
    fn within_limits(&self) -> bool {
        (1..=1024).contains(&self.cylinders) && (1..=255).contains(&self.heads) && (1..=63).contains(&self.sectors)
    }

    /// Block = (cylinder x H + head) x S + sector - 1; `None` means 04h.
    pub fn block(&self, at: Address) -> Option<u32> {
        let valid = self.within_limits() && at.cylinder < self.cylinders && at.head < self.heads && (1..=self.sectors).contains(&at.sector);
        valid.then(|| (at.cylinder * self.heads + at.head) * self.sectors + at.sector - 1)
    }

    /// The one valid address that gives the block; `None` means 04h.
    pub fn address(&self, block: u64) -> Option<Address> {
        if !self.within_limits() || block >= u64::from(self.cylinders * self.heads * self.sectors) {
            return None;
        }
        let block = block as u32;
        let track = block / self.sectors;
        Some(Address { cylinder: track / self.heads, head: track % self.heads, sector: block % self.sectors + 1 })
    }
}

/// "Cylinder is CH plus 256 times CL's top two bits; sector is CL's low six; head is DH."
pub fn address_in(cx: u16, dx: u16) -> Address {
    let [cl, ch] = cx.to_le_bytes();
    Address { cylinder: u32::from(ch) + 256 * u32::from(cl >> 6), head: u32::from(dx >> 8), sector: u32::from(cl & 0x3F) }
}
