//! The bytes of small equipment sheets, written down without the account's layout.

/// A header with these counts of nodes, links and lines.
pub fn header(nodes: u8, links: u8, lines: u8) -> Vec<u8> {
    vec![b'E', b'Q', b'S', 1, 0, nodes, links, lines]
}

/// A line: FIT, hours, length, and the bytes of its members.
pub fn line(numbers: [u32; 3], members: &[u8]) -> Vec<u8> {
    let mut bytes = numbers.map(u32::to_le_bytes).concat();
    bytes.push(members.len() as u8 / 2);
    bytes.extend(members);
    bytes
}
