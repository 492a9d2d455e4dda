// The arguments of an option text.
pub fn arguments(text: &[u8]) -> Vec<String> {
    let closed = text.strip_suffix(&[0]).unwrap();
    closed.split(|&b| b == 0).map(|a| String::from_utf8(a.to_vec()).unwrap()).collect()
}
