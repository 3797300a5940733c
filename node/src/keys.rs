//! A node's key and certificate, and TLS as nodes speak it: version 1.3, a certificate from both sides, and a list of fingerprints that decides alone.
//! Neither dates nor names nor signers are looked at, so that no clock and no authority matters.

use openssl::asn1::Asn1Time;
use openssl::bn::BigNum;
use openssl::ec::{EcGroup, EcKey};
use openssl::error::ErrorStack;
use openssl::hash::MessageDigest;
use openssl::nid::Nid;
use openssl::pkey::PKey;
use openssl::ssl::{
    SslContext, SslContextBuilder, SslFiletype, SslMethod, SslMode, SslOptions, SslRef, SslSessionCacheMode, SslVerifyMode, SslVersion,
};
use openssl::x509::X509;
use std::fs::{self, DirBuilder, File, OpenOptions};
use std::io::{self, Write};
use std::os::unix::fs::{DirBuilderExt, OpenOptionsExt};
use std::path::Path;

/// SHA-256 of a certificate: what the cluster file has of a node.
pub type Fingerprint = [u8; 32];

pub const KEY: &str = "node.key";
pub const CERTIFICATE: &str = "node.crt";

const SERIAL_BYTES: usize = 16;
const X509_VERSION_3: i32 = 2;
/// A date has to be there, and nobody looks at it.
const DAYS: u32 = 36_500;

fn made() -> Result<(Vec<u8>, X509), ErrorStack> {
    let group = EcGroup::from_curve_name(Nid::X9_62_PRIME256V1)?;
    let key = PKey::from_ec_key(EcKey::generate(&group)?)?;
    let mut serial = [0; SERIAL_BYTES];
    openssl::rand::rand_bytes(&mut serial)?;
    let serial = BigNum::from_slice(&serial)?.to_asn1_integer()?;
    let (from, to) = (Asn1Time::from_unix(0)?, Asn1Time::days_from_now(DAYS)?);
    let mut certificate = X509::builder()?;
    certificate.set_version(X509_VERSION_3)?;
    certificate.set_serial_number(&serial)?;
    certificate.set_pubkey(&key)?;
    certificate.set_not_before(&from)?;
    certificate.set_not_after(&to)?;
    certificate.sign(&key, MessageDigest::sha256())?;
    Ok((key.private_key_to_pem_pkcs8()?, certificate.build()))
}

fn write_new(path: &Path, mode: u32, bytes: &[u8]) -> io::Result<()> {
    let mut file = OpenOptions::new().write(true).create_new(true).mode(mode).open(path)?;
    file.write_all(bytes)?;
    file.sync_all()
}

/// Makes a key (readable by its owner alone) and a certificate in the folder, which is made too if it is missing. What is there is never written over.
pub fn generate(folder: &Path) -> Result<Fingerprint, String> {
    let said = |what: &Path, e: io::Error| format!("{}: {e}", what.display());
    if !folder.exists() {
        DirBuilder::new().mode(0o700).recursive(true).create(folder).map_err(|e| said(folder, e))?;
    }
    let (key, certificate) = (folder.join(KEY), folder.join(CERTIFICATE));
    for path in [&key, &certificate] {
        if fs::symlink_metadata(path).is_ok() {
            return Err(format!("{} is there already, and stays as it is", path.display()));
        }
    }
    let (pem, x509) = made().map_err(|e| format!("OpenSSL makes no key: {e}"))?;
    let public = x509.to_pem().map_err(|e| format!("OpenSSL writes no certificate: {e}"))?;
    write_new(&key, 0o600, &pem).map_err(|e| said(&key, e))?;
    write_new(&certificate, 0o644, &public).map_err(|e| said(&certificate, e))?;
    File::open(folder).and_then(|f| f.sync_all()).map_err(|e| said(folder, e))?;
    print_of(&x509).ok_or_else(|| "OpenSSL makes no digest".to_string())
}

fn print_of(certificate: &X509) -> Option<Fingerprint> {
    certificate.digest(MessageDigest::sha256()).ok()?.as_ref().try_into().ok()
}

/// The fingerprint of the folder's certificate.
pub fn fingerprint(folder: &Path) -> Result<Fingerprint, String> {
    let path = folder.join(CERTIFICATE);
    let pem = fs::read(&path).map_err(|e| format!("{}: {e}; `semduoli keygen` makes a key", path.display()))?;
    X509::from_pem(&pem).ok().and_then(|x| print_of(&x)).ok_or_else(|| format!("{}: no certificate", path.display()))
}

/// TLS for the node whose key the folder has; its partners have these fingerprints, and the own one is no partner's.
pub fn context(folder: &Path, partners: Vec<Fingerprint>) -> Result<SslContext, String> {
    let own = fingerprint(folder)?;
    let (key, certificate) = (folder.join(KEY), folder.join(CERTIFICATE));
    let bad = |what: &Path| {
        let what = what.display().to_string();
        move |e: ErrorStack| match e.errors().first() {
            Some(first) => format!("{what}: {}", first.reason().unwrap_or("not usable")),
            None => format!("{what}: not usable"),
        }
    };
    let mut c = SslContext::builder(SslMethod::tls()).map_err(bad(&key))?;
    c.set_private_key_file(&key, SslFiletype::PEM).map_err(bad(&key))?;
    c.set_certificate_file(&certificate, SslFiletype::PEM).map_err(bad(&certificate))?;
    c.check_private_key().map_err(|_| format!("{} is not the key of {}", key.display(), CERTIFICATE))?;
    settings(&mut c).map_err(bad(&key))?;
    c.set_verify_callback(SslVerifyMode::PEER | SslVerifyMode::FAIL_IF_NO_PEER_CERT, move |_, chain| {
        let print = chain.current_cert().and_then(|x| print_of(&x.to_owned()));
        chain.error_depth() == 0 && print.is_some_and(|p| p != own && partners.contains(&p))
    });
    Ok(c.build())
}

fn settings(c: &mut SslContextBuilder) -> Result<(), ErrorStack> {
    c.set_min_proto_version(Some(SslVersion::TLS1_3))?;
    c.set_options(SslOptions::NO_TICKET);
    c.set_session_cache_mode(SslSessionCacheMode::OFF);
    c.set_mode(SslMode::ENABLE_PARTIAL_WRITE | SslMode::ACCEPT_MOVING_WRITE_BUFFER);
    // a record is read by one call of the system, and not its head first
    c.set_read_ahead(true);
    Ok(())
}

/// Whose certificate a connection has, once its handshake is done.
pub fn partner(ssl: &SslRef) -> Option<Fingerprint> {
    ssl.peer_certificate().and_then(|x| print_of(&x))
}

#[cfg(test)]
mod tests {
    use super::*;

    #[test]
    fn a_key_is_made_once_and_read_back() {
        let folder = std::env::temp_dir().join(format!("semduoli-keys-{}", std::process::id()));
        let print = generate(&folder).unwrap();
        assert_eq!(fingerprint(&folder).unwrap(), print);
        let before = fs::read(folder.join(KEY)).unwrap();
        assert!(generate(&folder).unwrap_err().contains("is there already"));
        assert_eq!(fs::read(folder.join(KEY)).unwrap(), before);
        use std::os::unix::fs::PermissionsExt;
        assert_eq!(fs::metadata(folder.join(KEY)).unwrap().permissions().mode() & 0o777, 0o600);
        assert!(context(&folder, vec![]).is_ok());
        fs::write(folder.join(KEY), made().unwrap().0).unwrap();
        assert!(context(&folder, vec![]).err().unwrap().contains("is not the key of"));
        fs::write(folder.join(CERTIFICATE), b"nothing").unwrap();
        assert!(fingerprint(&folder).unwrap_err().contains("no certificate"));
        fs::remove_dir_all(&folder).unwrap();
    }
}
