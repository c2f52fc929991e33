//! Private addresses (document 02, T-03): the Core Specification's ah, and whether an address is a key's.

use crate::aes;
use crate::fault::Fault;
use crate::state::Device;

/// A key as a condition of type 3 has it, least octet first.
pub type Key = [u8; 16];

/// ah(k, r) of the Core Specification: r' is r under 104 zero bits, the hash the lowest 24 bits of e(k, r'). Key, r and
/// hash are least octet first; e takes the most significant octet first.
pub fn ah(key: &Key, prand: [u8; 3], fault: Fault) -> [u8; 3] {
    let mut first = *key;
    if fault != Fault::KeyNotReversed {
        first.reverse();
    }
    let mut block = [0; 16];
    block[13..].copy_from_slice(&[prand[2], prand[1], prand[0]]);
    let cipher = aes::encrypt(&first, &block, fault);
    match fault {
        Fault::HashFromFront => [cipher[2], cipher[1], cipher[0]],
        _ => [cipher[15], cipher[14], cipher[13]],
    }
}

/// "It matches a random address whose top two bits are 01 and whose lower 24 bits are the Core Specification's function
/// ah of the key and the upper 24 bits."
pub fn resolves(key: &Key, device: &Device, fault: Fault) -> bool {
    let address = device.address;
    if device.kind != 1 && fault != Fault::PublicResolves {
        return false;
    }
    if address[5] >> 6 != 0b01 && fault != Fault::TopBitsIgnored {
        return false;
    }
    let mut prand = [address[3], address[4], address[5]];
    if fault == Fault::PrandWithoutTop {
        prand[2] &= 0x3F;
    }
    address[..3] == ah(key, prand, fault)
}

/// A key's address with this upper half, its top two bits as they are given.
pub fn address(key: &Key, prand: [u8; 3]) -> [u8; 6] {
    let hash = ah(key, prand, Fault::None);
    [hash[0], hash[1], hash[2], prand[0], prand[1], prand[2]]
}
