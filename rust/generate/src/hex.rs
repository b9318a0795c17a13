//! Bytes and lists of fields in hex.

/// Two digits for each byte; a lone hyphen for nothing at all.
pub fn hex(bytes: &[u8]) -> String {
    if bytes.is_empty() {
        return "-".to_string();
    }
    bytes.iter().map(|byte| format!("{byte:02x}")).collect()
}

/// Two bytes for each field, high byte first.
pub fn wide(fields: &[u16]) -> Vec<u8> {
    fields.iter().flat_map(|field| field.to_be_bytes()).collect()
}
