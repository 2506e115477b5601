//! What firmware tells: the words of a machine `screen=`, `rsdp=`, `efi=`, `smbios=`, each at most once, and `avoid=`; and what a
//! kernel is told of it, as answers have it, which is nothing of what is not told.

use crate::pieces::pieces;
use crate::refusing::Refusing;
use crate::row::{Answered, Row, Stop, core_vec, require, say};
use crate::session::Session;
use crate::words::{cut, cut_or, number, range};
use bootcore::proved::bl_map::{ColorField, EfiBits, EfiInfo, OwnedEfi, OwnedFirmware, OwnedSmbios, Screen, SecureBoot};
use bootcore::proved::bl_mbi::{EfiCopy, SmbiosCopy};
use bootcore::shim::alloc::Global;

/// What firmware tells where no word says anything of it.
pub fn nothing() -> OwnedFirmware<Global> {
    OwnedFirmware { screen: None, rsdp: None, efi: None, smbios: None, avoided: core_vec(&[]) }
}

/// The words between so many commas.
fn fields<const COUNT: usize>(list: &str) -> Answered<[&str; COUNT]> {
    list.splitn(COUNT, ',').collect::<Vec<_>>().try_into().map_err(|_| Stop::BadRow)
}

/// The colour that `POSITION+SIZE` is.
fn color_of(word: &str) -> Answered<ColorField> {
    let (position, size) = cut(word, "+")?;
    Ok(ColorField { position: number(position)?, size: number(size)? })
}

/// The screen that `BASE,PITCH,WIDTH,HEIGHT,DEPTH,RED,GREEN,BLUE` is.
fn screen_of(word: &str) -> Answered<Screen> {
    let [base, pitch, width, height, depth, red, green, blue] = fields(word)?;
    Ok(Screen {
        base: number(base)?,
        pitch: number(pitch)?,
        width: number(width)?,
        height: number(height)?,
        depth: number(depth)?,
        red: color_of(red)?,
        green: color_of(green)?,
        blue: color_of(blue)?,
    })
}

/// What `BITS,TABLE,MAP_ADDRESS,DESCRIPTOR_SIZE,VERSION,SECURE_BOOT:MAP` says of UEFI. BITS is 20 or 40: 32 or 64 bits.
fn efi_of(session: &Session, word: &str) -> Answered<OwnedEfi<Global>> {
    let (numbers, map) = cut(word, ":")?;
    let [bits, system_table, map_address, descriptor_size, descriptor_version, secure_boot] = fields(numbers)?;
    Ok(OwnedEfi {
        bits: EfiBits::from_number(number(bits)?).ok_or(Stop::BadRow)?,
        system_table: number(system_table)?,
        map_address: number(map_address)?,
        map: core_vec(&session.bytes(map)?),
        descriptor_size: number(descriptor_size)?,
        descriptor_version: number(descriptor_version)?,
        secure_boot: SecureBoot::from_number(number(secure_boot)?).ok_or(Stop::BadRow)?,
    })
}

/// SMBIOS of the version and with the tables that `MAJOR,MINOR:TABLES` says.
fn smbios_of(session: &Session, word: &str) -> Answered<OwnedSmbios<Global>> {
    let (version, tables) = cut(word, ":")?;
    let [major, minor] = fields(version)?;
    Ok(OwnedSmbios { major: number(major)?, minor: number(minor)?, tables: core_vec(&session.bytes(tables)?) })
}

/// Adds what a word `NAME=VALUE` says.
pub fn add(session: &Session, told: &mut OwnedFirmware<Global>, name: &str, value: &str) -> Answered {
    let is_second = match name {
        "screen" => told.screen.replace(screen_of(value)?).is_some(),
        "rsdp" => told.rsdp.replace(number(value)?).is_some(),
        "efi" => told.efi.replace(efi_of(session, value)?).is_some(),
        "smbios" => told.smbios.replace(smbios_of(session, value)?).is_some(),
        "avoid" => {
            let (word, count) = cut_or(value, '*', "1");
            for _ in 0..number::<u64>(count)? {
                told.avoided.push(range(word)?)?;
            }
            false
        }
        _ => true,
    };
    require(!is_second)
}

/// A screen, as the word of a machine has it.
pub fn say_screen(row: &mut Row<'_>, screen: &Option<Screen>) {
    let Some(Screen { base, pitch, width, height, depth, red, green, blue }) = screen else {
        return;
    };
    say!(row, " screen={base:x},{pitch:x},{width:x},{height:x},{depth:x}");
    for color in [red, green, blue] {
        say!(row, ",{:x}+{:x}", color.position, color.size);
    }
}

/// The address of ACPI's root pointer.
pub fn say_rsdp(row: &mut Row<'_>, rsdp: Option<u64>) {
    if let Some(address) = rsdp {
        say!(row, " rsdp={address:x}");
    }
}

/// UEFI, as boot parameters tell it: `BITS,TABLE,MAP_ADDRESS+MAP_SIZE,DESCRIPTOR_SIZE,VERSION,SECURE_BOOT`.
pub fn say_efi_info(row: &mut Row<'_>, efi: &Option<EfiInfo>) {
    if let Some(efi) = efi {
        say!(row, " efi={:x},{:x},{:x}+{:x}", efi.bits.number(), efi.system_table, efi.map_address, efi.map_size);
        say!(row, ",{:x},{:x},{:x}", efi.descriptor_size, efi.descriptor_version, efi.secure_boot.number());
    }
}

/// UEFI, as boot information tells it: `BITS,TABLE,DESCRIPTOR_SIZE,VERSION:MAP`.
pub fn say_efi_copy(row: &mut Row<'_>, efi: &Option<EfiCopy<&Refusing>>) {
    if let Some(efi) = efi {
        say!(row, " efi={:x},{:x}", efi.bits.number(), efi.system_table);
        say!(row, ",{:x},{:x}:{}", efi.descriptor_size, efi.descriptor_version, pieces(efi.map.as_slice()));
    }
}

/// SMBIOS, as `MAJOR,MINOR:TABLES`.
pub fn say_smbios(row: &mut Row<'_>, smbios: &Option<SmbiosCopy<&Refusing>>) {
    if let Some(smbios) = smbios {
        say!(row, " smbios={:x},{:x}:{}", smbios.major, smbios.minor, pieces(smbios.tables.as_slice()));
    }
}
