//! The text of a record, as the listing and the bench program write it.
//!
//! The crate gives values and no places. A range is written where document 01 has the field, and only if the bytes there are the crate's
//! value; otherwise a `?` is written, which no line of ours has.

use std::fmt::Write;
use uefi_eventlog::parsed::{
    DevicePath, DevicePathInfo as Info, DevicePathInfoHardDrivePartitionFormat as Format,
    DevicePathInfoHardDriveSignatureType as Signature, EfiPartitionEntry, EndOfPathType, ParsedEventData as Parsed, SeparatorType,
};
use uefi_eventlog::Event;

pub fn number(bytes: &[u8], at: usize, width: usize) -> u64 {
    bytes[at..at + width].iter().rev().fold(0, |n, &b| n << 8 | b as u64)
}

/// `O+L` for a value that stands at O of these bytes; `shift` is counted to O.
fn range(bytes: &[u8], at: usize, value: &[u8], shift: usize) -> String {
    if bytes.get(at..at + value.len()) == Some(value) {
        format!("{}+{}", at + shift, value.len())
    } else {
        "?".to_string()
    }
}

fn wide(text: &str) -> Vec<u8> {
    text.encode_utf16().flat_map(u16::to_le_bytes).collect()
}

/// The bytes of the log for a GUID whose first three fields the crate turned round.
fn turned(guid: &[u8; 16]) -> Vec<u8> {
    [3, 2, 1, 0, 5, 4, 7, 6, 8, 9, 10, 11, 12, 13, 14, 15].iter().map(|&i| guid[i]).collect()
}

pub fn word(parsed: &Option<Parsed>) -> &'static str {
    match parsed {
        None => "none",
        Some(Parsed::Text(_)) => "text",
        Some(Parsed::EfiVariable(_)) => "variable",
        Some(Parsed::ImageLoadEvent { .. }) => "image",
        Some(Parsed::GptInfo { .. }) => "gpt",
        Some(Parsed::FirmwareBlobLocation { .. }) => "blob",
        Some(Parsed::ValidSeparator(SeparatorType::UEFI)) => "separator uefi",
        Some(Parsed::ValidSeparator(SeparatorType::ConventionalBIOS)) => "separator bios",
    }
}

/// The fields of the contents; the data start at `d`.
pub fn fields(out: &mut String, log: &[u8], d: usize, event: &Event) {
    let end = d + event.data.len();
    match &event.parsed_data {
        None | Some(Parsed::ValidSeparator(_)) => {}
        Some(Parsed::Text(text)) => {
            let value = if u32::from(event.event) == 8 { wide(text) } else { text.clone().into_bytes() };
            let _ = write!(out, " {}", range(log, d, &value, 0));
        }
        Some(Parsed::FirmwareBlobLocation { base, length }) => {
            let _ = write!(out, " base {base} length {length}");
        }
        Some(Parsed::EfiVariable(v)) => {
            let _ = write!(out, " guid {}", range(log, d, v.variable_guid.as_bytes(), 0));
            let _ = write!(out, " name {}", range(log, d + 32, &wide(&v.name), 0));
            let _ = write!(out, " data {}", range(log, end - v.data.len(), &v.data, 0));
        }
        Some(Parsed::ImageLoadEvent {
            image_location_in_memory: location,
            image_length_in_memory: length,
            image_link_time_address: link,
            device_path,
            extra_data,
        }) => {
            let p = event.data.len() - 32 - extra_data.len();
            let nodes = nodes(device_path).count();
            let _ = write!(out, " location {location} length {length} link {link} path {}+{p} nodes {nodes}", d + 32);
            let _ = write!(out, " extra {}", range(log, end - extra_data.len(), extra_data, 0));
        }
        Some(Parsed::GptInfo { header, partitions }) => {
            let table = &header.header;
            let _ = write!(out, " revision {} size {} spare {}", table.revision, table.size, table.reserved);
            let _ = write!(out, " my {} other {}", header.my_lba, header.alternate_lba);
            let _ = write!(out, " first {} last {}", header.first_usable_lba, header.last_usable_lba);
            let _ = write!(out, " disk {}", range(log, d + 56, &turned(header.disk_guid.as_bytes()), 0));
            let _ = write!(out, " lba {}", header.partition_entry_lba);
            let _ = write!(out, " reserved {}", range(log, d + 92, &header.reserved, 0));
            // The crate does not keep the entry size.
            let (h, e) = (92 + header.reserved.len(), number(&event.data, 84, 4));
            let _ = write!(out, " h {h} e {e} entries {}", partitions.len());
        }
    }
}

fn nodes(path: &Option<DevicePath>) -> impl Iterator<Item = &DevicePath> {
    std::iter::successors(path.as_ref(), |node| node.next.as_deref())
}

/// A line for each node of an image's path, places counted from the path's start; for each entry of a GPT, counted from the data's start.
pub fn parts(out: &mut String, event: &Event) {
    match &event.parsed_data {
        Some(Parsed::ImageLoadEvent { device_path, .. }) => {
            let (path, mut at) = (&event.data[32..], 0);
            for one in nodes(device_path) {
                let length = number(path, at + 2, 2) as usize;
                let _ = write!(out, "node at {at} length {length}");
                node(out, path, at, length, &one.info);
                out.push('\n');
                at += length;
            }
        }
        Some(Parsed::GptInfo { header, partitions }) => {
            let (h, e) = (92 + header.reserved.len(), number(&event.data, 84, 4) as usize);
            for (i, one) in partitions.iter().enumerate() {
                entry(out, &event.data, h + i * e, one);
            }
        }
        _ => {}
    }
}

fn node(out: &mut String, path: &[u8], at: usize, length: usize, info: &Info) {
    let _ = match info {
        // The crate keeps no body of an end node.
        Info::EndOfPath(EndOfPathType::EntireDevicePath) => write!(out, " end-entire body {}+{}", at + 4, length - 4),
        Info::EndOfPath(EndOfPathType::Instance) => write!(out, " end-instance body {}+{}", at + 4, length - 4),
        Info::DevicePCI { function, device } => write!(out, " pci function {function} device {device}"),
        Info::DeviceMemoryMapped { memory_type, start_address, end_address } => {
            write!(out, " memory kind {memory_type} start {start_address} end {end_address}")
        }
        Info::Acpi { hid, uid } => write!(out, " acpi hid {hid} uid {uid}"),
        Info::HardDrive {
            partition_number,
            partition_start,
            partition_size,
            partition_signature,
            partition_format,
            signature_type,
        } => {
            let _ = write!(out, " drive number {partition_number} start {partition_start} size {partition_size}");
            let _ = write!(out, " signature {}", range(path, at + 24, partition_signature, 0));
            let format = match partition_format {
                Format::Mbr => 1,
                Format::Gpt => 2,
            };
            let signature = match signature_type {
                Signature::NoSignature => 0,
                Signature::MbrType => 1,
                Signature::Guid => 2,
            };
            write!(out, " format {format} signature-type {signature}")
        }
        Info::FilePath { path: name } => {
            out.push_str(" file");
            write!(out, " name {}", range(path, at + 4, &wide(name), 0))
        }
        Info::UnknownDevice { device_type, device_subtype, data } => {
            let _ = write!(out, " unknown type {device_type} subtype {device_subtype}");
            write!(out, " body {}", range(path, at + 4, data, 0))
        }
    };
}

fn entry(out: &mut String, data: &[u8], at: usize, one: &EfiPartitionEntry) {
    let _ = write!(out, "entry at {at}");
    let _ = write!(out, " type {}", range(data, at, &turned(one.partition_type.as_bytes()), 0));
    let _ = write!(out, " own {}", range(data, at + 16, &turned(one.unique_partition_guid.as_bytes()), 0));
    let _ = write!(out, " first {} last {} attributes {}", one.starting_lba, one.ending_lba, one.attributes);
    let _ = write!(out, " name {}", range(data, at + 56, &wide(&one.partition_name), 0));
    let _ = write!(out, " rest {}", range(data, at + 128, &one.reserved, 0));
    out.push('\n');
}

/// The marker's fields, out of the crate's own `{:?}` of what it kept of it. It keeps the sizes by id, so the number of pairs is what is left
/// between the fixed fields and the vendor's bytes, and it is told only if those pairs, the last size of an id counting, are the crate's.
pub fn marker(out: &mut String, data: &[u8], parser: &str) {
    let kept = parser.split("EfiSpecId {").nth(1).unwrap_or("");
    let told = |name: &str, stop: char| kept.split(name).nth(1).and_then(|t| t.split(stop).next()).unwrap_or("?");
    let list = |text: &str| -> Vec<u64> { text.split([',', ':', ' ']).filter_map(|t| t.parse().ok()).collect() };
    let _ = write!(out, " class {} minor {}", told("platform_class: ", ','), told("spec_version_minor: ", ','));
    let _ = write!(out, " major {} errata {}", told("spec_version_major: ", ','), told("spec_errata: ", ','));
    let _ = write!(out, " uintn {}", told("uintn_size: ", ','));
    let vendor: Vec<u8> = list(told("vendor_info: [", ']')).iter().map(|&b| b as u8).collect();
    let pairs = (data.len() - 29 - vendor.len()) / 4;
    let mut sizes = std::collections::BTreeMap::new();
    for i in 0..pairs {
        sizes.insert(number(data, 28 + 4 * i, 2), number(data, 30 + 4 * i, 2));
    }
    let kept_sizes: std::collections::BTreeMap<u64, u64> = list(told("algo_sizes: {", '}')).chunks(2).map(|p| (p[0], p[1])).collect();
    let _ = if sizes == kept_sizes { write!(out, " pairs {pairs}") } else { write!(out, " pairs ?") };
    let _ = write!(out, " vendor {}", range(data, data.len() - vendor.len(), &vendor, 32));
}
