//! TLS, where no proxy has it: by rustls 0.20, which knows no IP addresses in certificates, and reads them once, at the
//! start.

use crate::settings::Tls;
use hyper::client::HttpConnector;
use hyper_rustls::{HttpsConnector, HttpsConnectorBuilder};
use rustls_pemfile::Item;
use std::fs::File;
use std::io::BufReader;
use std::path::Path;
use std::sync::Arc;
use tokio_rustls::rustls::{Certificate, ClientConfig, PrivateKey, RootCertStore, ServerConfig};
use tokio_rustls::TlsAcceptor;

/// The certificates that the system trusts.
const SYSTEM: &str = "/etc/ssl/certs/ca-certificates.crt";

/// What greets connections by the certificate and key of the settings.
pub fn acceptor(tls: &Tls) -> Result<TlsAcceptor, String> {
    let key = items(&tls.key)?.into_iter().find_map(|it| match it {
        Item::PKCS8Key(key) | Item::RSAKey(key) | Item::ECKey(key) => Some(PrivateKey(key)),
        _ => None,
    });
    let key = key.ok_or_else(|| format!("{}: no key", tls.key.display()))?;
    let mut config = ServerConfig::builder()
        .with_safe_defaults()
        .with_no_client_auth()
        .with_single_cert(certificates(&tls.certificate)?, key)
        .map_err(|why| format!("{}: {why}", tls.certificate.display()))?;
    config.alpn_protocols = vec![b"http/1.1".to_vec()];
    Ok(TlsAcceptor::from(Arc::new(config)))
}

/// What connects to peers, whose certificates have to be signed by one of a file, or of those that the system trusts.
pub fn connector(mut tcp: HttpConnector, ca: Option<&Path>) -> Result<HttpsConnector<HttpConnector>, String> {
    let mut roots = RootCertStore::empty();
    match certificates(ca.unwrap_or(Path::new(SYSTEM))) {
        Ok(all) => all.iter().filter(|it| roots.add(it).is_err()).count(),
        // Without certificates of the system peers without TLS can be pulled from.
        Err(_) if ca.is_none() => 0,
        Err(why) => return Err(why),
    };
    let config = ClientConfig::builder().with_safe_defaults().with_root_certificates(roots).with_no_client_auth();
    tcp.enforce_http(false);
    Ok(HttpsConnectorBuilder::new().with_tls_config(config).https_or_http().enable_http1().wrap_connector(tcp))
}

fn certificates(path: &Path) -> Result<Vec<Certificate>, String> {
    let each = items(path)?.into_iter().filter_map(|it| match it {
        Item::X509Certificate(der) => Some(Certificate(der)),
        _ => None,
    });
    let all: Vec<Certificate> = each.collect();
    if all.is_empty() {
        return Err(format!("{}: no certificate", path.display()));
    }
    Ok(all)
}

fn items(path: &Path) -> Result<Vec<Item>, String> {
    let told = |why: std::io::Error| format!("{}: {why}", path.display());
    rustls_pemfile::read_all(&mut BufReader::new(File::open(path).map_err(told)?)).map_err(told)
}

#[cfg(test)]
mod tests {
    use super::*;

    #[test]
    fn files_that_are_no_certificates_say_so() {
        let folder = std::env::temp_dir().join(format!("jumbetaid-tls-{}", std::process::id()));
        std::fs::create_dir_all(&folder).unwrap();
        let (none, empty) = (folder.join("none.pem"), folder.join("empty.pem"));
        std::fs::write(&empty, "no certificate\n").unwrap();
        let refused = |certificate: &Path, key: &Path| {
            let tls = Tls { certificate: certificate.into(), key: key.into() };
            acceptor(&tls).err().unwrap()
        };
        assert!(refused(&empty, &none).starts_with(&format!("{}: ", none.display())));
        assert_eq!(refused(&none, &empty), format!("{}: no key", empty.display()));
        assert!(connector(HttpConnector::new(), Some(&empty)).err().unwrap().ends_with(": no certificate"));
        std::fs::remove_dir_all(&folder).unwrap();
    }
}
