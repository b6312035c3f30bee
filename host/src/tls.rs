//! Certificates and keys, read from their PEM files: what the server shows, and whom it trusts.

use crate::config::{Config, Named, Tls};
use rustls_pemfile::Item;
use std::fs::File;
use std::io::BufReader;
use std::sync::Arc;
use tokio_rustls::rustls::{Certificate, PrivateKey, RootCertStore, ServerConfig};

/// How the server speaks TLS: with the chain and the key of the configuration.
pub fn server(tls: &Tls) -> Result<Arc<ServerConfig>, String> {
    let key = items(&tls.key)?.into_iter().find_map(|item| match item {
        Item::RSAKey(key) | Item::PKCS8Key(key) | Item::ECKey(key) => Some(PrivateKey(key)),
        _ => None,
    });
    let key = key.ok_or_else(|| tls.key.fault("there is no private key in it"))?;
    let mut config = ServerConfig::builder()
        .with_safe_defaults()
        .with_no_client_auth()
        .with_single_cert(certificates(&tls.cert)?, key)
        .map_err(|error| tls.key.fault(error))?;
    config.alpn_protocols = vec![b"http/1.1".to_vec()];
    Ok(Arc::new(config))
}

/// The authorities that others' certificates are judged by.
pub fn trusted(config: &Config) -> Result<RootCertStore, String> {
    let mut roots = RootCertStore::empty();
    match &config.ca {
        Some(file) => {
            for certificate in certificates(file)? {
                roots.add(&certificate).map_err(|error| file.fault(error))?;
            }
        }
        None => {
            let system = rustls_native_certs::load_native_certs().map_err(|error| format!("the system's authorities: {error}"))?;
            let system: Vec<Vec<u8>> = system.into_iter().map(|certificate| certificate.0).collect();
            // Some of a system's are of kinds that are not understood; the others count.
            roots.add_parsable_certificates(&system);
        }
    }
    Ok(roots)
}

fn certificates(file: &Named) -> Result<Vec<Certificate>, String> {
    let chain = items(file)?.into_iter().filter_map(|item| match item {
        Item::X509Certificate(certificate) => Some(Certificate(certificate)),
        _ => None,
    });
    let chain: Vec<Certificate> = chain.collect();
    if chain.is_empty() {
        return Err(file.fault("there is no certificate in it"));
    }
    Ok(chain)
}

fn items(file: &Named) -> Result<Vec<Item>, String> {
    let open = File::open(&file.path).map_err(|error| file.fault(error))?;
    rustls_pemfile::read_all(&mut BufReader::new(open)).map_err(|error| file.fault(error))
}
