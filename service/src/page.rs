//! The page that shows a site to people: one file, whose script asks for all that it shows.

use crate::problems::{plain, set, Answered};
use hyper::StatusCode;
use sha2::{Digest, Sha256};
use std::sync::OnceLock;

const PAGE: &str = include_str!("page.html");

/// `GET /`: the page, and what it may do.
pub fn page() -> Answered {
    static POLICY: OnceLock<String> = OnceLock::new();
    let mut answer = plain(StatusCode::OK, "text/html; charset=utf-8", PAGE);
    set(&mut answer, "content-security-policy", POLICY.get_or_init(|| policy_of(PAGE)));
    set(&mut answer, "x-content-type-options", "nosniff");
    set(&mut answer, "x-frame-options", "DENY");
    set(&mut answer, "referrer-policy", "no-referrer");
    set(&mut answer, "cross-origin-opener-policy", "same-origin");
    set(&mut answer, "cache-control", "no-cache");
    answer
}

/// Nothing but the page's own style and script, each by its digest, and questions to where it came from. No text becomes
/// code or markup: a script that tries is stopped.
fn policy_of(page: &str) -> String {
    format!(
        "default-src 'none'; style-src '{}'; script-src '{}'; connect-src 'self'; base-uri 'none'; form-action 'none'; \
         frame-ancestors 'none'; require-trusted-types-for 'script'; trusted-types 'none'",
        digest_of(page, "style"),
        digest_of(page, "script")
    )
}

/// The digest of what stands in the page's only element of a name.
fn digest_of(page: &str, name: &str) -> String {
    let begin = page.split_once(&format!("<{name}>")).map_or("", |it| it.1);
    let text = begin.split_once(&format!("</{name}>")).map_or("", |it| it.0);
    format!("sha256-{}", base64::encode(Sha256::digest(text.as_bytes())))
}

#[cfg(test)]
mod tests {
    use super::*;

    #[test]
    fn the_policy_names_style_and_script() {
        // printf '"use strict"' | openssl dgst -sha256 -binary | base64
        let script = "sha256-TuGI4XRMGYFulaVAsmUO2fAz6gNx506sjnFzVc/Kh0E=";
        assert_eq!(digest_of("<p><script>\"use strict\"</script>", "script"), script);
        for it in ["style", "script"] {
            assert_eq!((PAGE.matches(&format!("<{it}>")).count(), PAGE.matches(&format!("</{it}>")).count()), (1, 1));
            assert!(policy_of(PAGE).contains(&format!("{it}-src '{}'", digest_of(PAGE, it))));
        }
    }

    #[test]
    fn the_page_stands_alone_and_makes_no_code_of_texts() {
        for bad in ["://", "innerHTML", "outerHTML", "insertAdjacent", "document.write", "eval(", "style=", "onclick="]
        {
            let page = PAGE.replace("http://www.w3.org/2000/svg", "");
            assert!(!page.contains(bad), "{bad}");
        }
    }
}
