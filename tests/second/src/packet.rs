// The layout of IP packets. It is read leniently: a byte that isn't there counts as 0, so that each rule
// can be asked of each packet by itself.

use crate::walk::{Stop, Walk};

pub const ICMP: u8 = 1;
pub const TCP: u8 = 6;
pub const UDP: u8 = 17;
pub const ICMPV6: u8 = 58;

/// The place of the field in an IPv4 header.
pub const HEADER_FIELD: usize = 10;

/// A row of the paper's table of protocols.
pub struct Row {
    pub protocol: u8,
    pub families: &'static [u8],
    pub fixed: usize,
    pub field: usize,
    pub pseudo: bool,
}

#[rustfmt::skip]
pub const TABLE: [Row; 4] = [
    Row { protocol: ICMP,   families: &[4],    fixed: 8,  field: 2,  pseudo: false },
    Row { protocol: TCP,    families: &[4, 6], fixed: 20, field: 16, pseudo: true },
    Row { protocol: UDP,    families: &[4, 6], fixed: 8,  field: 6,  pseudo: true },
    Row { protocol: ICMPV6, families: &[6],    fixed: 4,  field: 2,  pseudo: true },
];

/// A packet's bytes, the family they are read as, and the walk to the message.
#[derive(Clone)]
pub struct View<'a> {
    pub bytes: &'a [u8],
    pub family: u8,
    pub walk: Walk,
}

impl<'a> View<'a> {
    /// The packet read as the family its version says.
    pub fn new(bytes: &'a [u8]) -> Self {
        View::read_as(bytes, bytes.first().map_or(0, |byte| byte >> 4))
    }

    /// The packet read as a given family, whatever its version says.
    pub fn read_as(bytes: &'a [u8], family: u8) -> Self {
        let mut view = View { bytes, family, walk: Walk::default() };
        view.walk = match family {
            6 => Walk::over(&view, 6, 40),
            _ => Walk::direct(&view, 9, view.header_length()),
        };
        view
    }

    pub fn byte(&self, place: usize) -> u8 {
        self.bytes.get(place).copied().unwrap_or(0)
    }

    pub fn word(&self, place: usize) -> u16 {
        u16::from_be_bytes([self.byte(place), self.byte(place + 1)])
    }

    fn stretch(&self, place: usize, length: usize) -> Vec<u8> {
        (place..place + length).map(|i| self.byte(i)).collect()
    }

    /// Of two values, the one for this family.
    fn by_family<T>(&self, four: T, six: T) -> T {
        if self.family == 6 {
            six
        } else {
            four
        }
    }

    pub fn version(&self) -> u8 {
        self.byte(0) >> 4
    }

    /// The fewest bytes a packet of this family has.
    pub fn least(&self) -> usize {
        self.by_family(20, 40)
    }

    /// The IP header's length.
    pub fn header_length(&self) -> usize {
        self.by_family(4 * usize::from(self.byte(0) & 15), 40)
    }

    /// The declared end; what lies behind it is tail, and UDP's trailing area before it too.
    pub fn end(&self) -> usize {
        self.by_family(usize::from(self.word(2)), 40 + usize::from(self.word(4)))
    }

    pub fn lifetime_place(&self) -> usize {
        self.by_family(8, 7)
    }

    /// The place of the byte that says the protocol.
    pub fn protocol_place(&self) -> usize {
        self.walk.said_at
    }

    /// The protocol that the walk ends with.
    pub fn protocol(&self) -> u8 {
        self.walk.protocol
    }

    /// What the IP header says of what follows it: the protocol, or the first header between.
    pub fn first_said(&self) -> u8 {
        self.byte(self.by_family(9, 6))
    }

    /// Whether this is what the walk met first.
    pub fn stopped_by(&self, stop: Stop) -> bool {
        self.walk.stop() == Some(stop)
    }

    /// The family and the protocol.
    pub fn kind(&self) -> (u8, u8) {
        (self.family, self.protocol())
    }

    pub fn address_length(&self) -> usize {
        self.by_family(4, 16)
    }

    /// The place of the source (side 0) or the destination (side 1).
    pub fn address_place(&self, side: usize) -> usize {
        self.by_family(12, 8) + side * self.address_length()
    }

    pub fn more_fragments(&self) -> bool {
        self.word(6) & 0x2000 != 0
    }

    pub fn fragment_offset(&self) -> u16 {
        self.word(6) & 0x1FFF
    }

    /// The IPv4 header with its options.
    pub fn header(&self) -> &'a [u8] {
        &self.bytes[..self.header_length().min(self.bytes.len())]
    }

    /// Where the message begins: where the walk ends, or behind the IP header if that isn't at a protocol of the table.
    pub fn message_start(&self) -> usize {
        self.row().map_or(self.header_length(), |_| self.walk.start)
    }

    pub fn message_length(&self) -> usize {
        self.end().saturating_sub(self.message_start())
    }

    /// What remains between the walk's end and the declared end.
    pub fn message(&self) -> &'a [u8] {
        let end = self.end().min(self.bytes.len());
        &self.bytes[self.message_start().min(end)..end]
    }

    /// The protocol's row of the table, of whichever family.
    pub fn row(&self) -> Option<&'static Row> {
        TABLE.iter().find(|row| row.protocol == self.protocol())
    }

    /// The pseudo-header, empty for a protocol without one.
    pub fn pseudo_header(&self) -> Vec<u8> {
        if !self.row().map_or(false, |row| row.pseudo) {
            return Vec::new();
        }
        let mut pseudo = self.stretch(self.address_place(0), 2 * self.address_length());
        let length = self.covered_length() as u32;
        if self.family == 6 {
            pseudo.extend(length.to_be_bytes());
            pseudo.extend([0, 0, 0, self.protocol()]);
        } else {
            pseudo.extend([0, self.protocol()]);
            pseudo.extend((length as u16).to_be_bytes());
        }
        pseudo
    }

    /// The covered block: the pseudo-header, then the message, of UDP the datagram alone.
    pub fn covered_block(&self) -> Vec<u8> {
        let (mut block, message) = (self.pseudo_header(), self.message());
        block.extend(&message[..self.covered_length().min(message.len())]);
        block
    }

    /// The place of the message field in the packet.
    pub fn field_place(&self) -> usize {
        self.message_start() + self.row().map_or(0, |row| row.field)
    }

    /// TCP's data offset in words.
    pub fn data_offset(&self) -> usize {
        usize::from(self.byte(self.message_start() + 12) >> 4)
    }

    /// UDP's own length, which is that of the datagram.
    pub fn udp_length(&self) -> usize {
        usize::from(self.word(self.message_start() + 4))
    }

    /// Whether UDP's length is from 8 up to the message length.
    pub fn datagram_fits(&self) -> bool {
        (8..=self.message_length()).contains(&self.udp_length())
    }

    /// How much of the message its field covers: of UDP the datagram, or all if that doesn't fit; of others all.
    pub fn covered_length(&self) -> usize {
        match self.protocol() {
            UDP if self.datagram_fits() => self.udp_length(),
            _ => self.message_length(),
        }
    }

    /// The length of the trailing area: what lies between UDP's datagram and the declared end.
    pub fn trailing_length(&self) -> usize {
        self.message_length() - self.covered_length()
    }

    /// The place of the body in the message.
    pub fn body_offset(&self) -> usize {
        match self.protocol() {
            TCP => 4 * self.data_offset(),
            _ => self.row().map_or(0, |row| row.fixed),
        }
    }

    pub fn body_length(&self) -> usize {
        self.covered_length().saturating_sub(self.body_offset())
    }
}
