//! A root and a server beneath it, signed by keys of OpenSSL and verified by it, in one process.
use openssl::pkey::{PKey, Private};
use openssl::sign::Signer;
use openssl::stack::Stack;
use openssl::x509::store::X509StoreBuilder;
use openssl::x509::verify::{X509VerifyFlags, X509VerifyParam};
use openssl::x509::{X509StoreContext, X509};
use std::error::Error;

/// How a call ended, as include/shelf.h has it.
#[repr(C)]
struct Outcome {
    status: u32,
    length: usize,
    told: usize,
}

extern "C" {
    fn shelf_tbs(
        order: *const u8,
        order_length: usize,
        files: *const u8,
        files_length: usize,
        buffer: *mut u8,
        room: usize,
    ) -> Outcome;
    fn shelf_seal(
        order: *const u8,
        order_length: usize,
        files: *const u8,
        files_length: usize,
        signature: *const u8,
        signature_length: usize,
        buffer: *mut u8,
        room: usize,
    ) -> Outcome;
}

const ROOT: &str = r#"
kind = "certificate"
profile = "root"
subject = ["O=Example", "CN=Example Root"]
start = "2026-01-01T00:00:00Z"
days = 3650
serial = "01"
"#;

const SERVER: &str = r#"
kind = "certificate"
profile = "server"
common_name = "www.lab"
alt_names = ["dns:www.lab"]
start = "2026-01-01T00:00:00Z"
days = 3650
serial = "02"
"#;

/// The answer of an outcome; the error is the lines after it.
fn answer(outcome: Outcome, mut buffer: Vec<u8>) -> Result<Vec<u8>, Box<dyn Error>> {
    let told = match outcome.status {
        0 | 4 | 5 => &buffer[outcome.length..outcome.length + outcome.told],
        _ => &[],
    };
    let told = String::from_utf8_lossy(told).into_owned();
    match outcome.status {
        0 => {
            eprint!("{told}");
            buffer.truncate(outcome.length);
            Ok(buffer)
        }
        status => Err(format!("status {status}\n{told}").into()),
    }
}

/// The octets that the signing key signs.
fn tbs(order: &str, files: &[u8]) -> Result<Vec<u8>, Box<dyn Error>> {
    let mut buffer = vec![0; 1 << 16];
    // SAFETY: all are slices, which aren't null, and none overlaps the buffer.
    let outcome = unsafe {
        shelf_tbs(
            order.as_ptr(),
            order.len(),
            files.as_ptr(),
            files.len(),
            buffer.as_mut_ptr(),
            buffer.len(),
        )
    };
    answer(outcome, buffer)
}

/// What the order makes with this signature, in PEM.
fn sealed(order: &str, files: &[u8], signature: &[u8]) -> Result<Vec<u8>, Box<dyn Error>> {
    let mut buffer = vec![0; 1 << 16];
    // SAFETY: all are slices, which aren't null, and none overlaps the buffer.
    let outcome = unsafe {
        shelf_seal(
            order.as_ptr(),
            order.len(),
            files.as_ptr(),
            files.len(),
            signature.as_ptr(),
            signature.len(),
            buffer.as_mut_ptr(),
            buffer.len(),
        )
    };
    answer(outcome, buffer)
}

/// The certificate that the order asks for, of the subject's key, signed by the issuer's.
fn issued(
    order: &str,
    subject: &PKey<Private>,
    key: &PKey<Private>,
    issuer: Option<&X509>,
) -> Result<X509, Box<dyn Error>> {
    let mut files = subject.public_key_to_pem()?;
    if let Some(issuer) = issuer {
        files.extend(issuer.to_pem()?);
    }
    let message = tbs(order, &files)?;
    let signature = Signer::new_without_digest(key)?.sign_oneshot_to_vec(&message)?;
    let text = sealed(order, &files, &signature)?;
    print!("{}", String::from_utf8_lossy(&text));
    Ok(X509::from_pem(&text)?)
}

fn main() -> Result<(), Box<dyn Error>> {
    let (root_key, server_key) = (PKey::generate_ed25519()?, PKey::generate_ed25519()?);
    let root = issued(ROOT, &root_key, &root_key, None)?;
    let server = issued(SERVER, &server_key, &root_key, Some(&root))?;
    let mut store = X509StoreBuilder::new()?;
    store.add_cert(root)?;
    let mut wanted = X509VerifyParam::new()?;
    wanted.set_flags(X509VerifyFlags::X509_STRICT | X509VerifyFlags::CHECK_SS_SIGNATURE)?;
    wanted.set_host("www.lab")?;
    store.set_param(&wanted)?;
    let mut path = X509StoreContext::new()?;
    let error = path.init(&store.build(), &server, &Stack::new()?.as_ref(), |path| {
        path.verify_cert()?;
        Ok(path.error())
    })?;
    match error.as_raw() {
        0 => Ok(()),
        _ => Err(error.error_string().into()),
    }
}
