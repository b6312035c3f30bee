//! What dresses a page: the core's bytes go out as they are, and after them come a style sheet, a small script and the page's meaning in words,
//! in English or Spanish. Also pages of the server's own, in the core's layout, for what never reaches the core.

/// The style sheet and the script, as files of their own: the content policy allows no others.
pub const STYLE: (&str, &str) = ("/cas/static/page.css", include_str!("../static/page.css"));
pub const SCRIPT: (&str, &str) = ("/cas/static/page.js", include_str!("../static/page.js"));

#[derive(Clone, Copy, Debug, PartialEq)]
pub enum Language {
    English,
    Spanish,
}

/// What a page is about.
#[derive(Clone, Copy, Debug, PartialEq)]
pub enum Subject {
    Form,
    SignedIn,
    SignedOut,
    Status(u16),
}

/// The first language of the header that there are words in, English where there is none.
pub fn language(accepted: &str) -> Language {
    let known = accepted.split(',').find_map(|range| match range.split([';', '-']).next()?.trim() {
        "es" => Some(Language::Spanish),
        "en" => Some(Language::English),
        _ => None,
    });
    known.unwrap_or(Language::English)
}

/// What the core's page with this status is about.
pub fn subject(status: u16, page: &[u8]) -> Subject {
    let has = |text: &[u8]| page.windows(text.len()).any(|part| part == text);
    match status {
        200 if has(b"<form ") => Subject::Form,
        200 if has(b"<p>Signed out</p>") => Subject::SignedOut,
        200 => Subject::SignedIn,
        _ => Subject::Status(status),
    }
}

/// A page of the server's own, in the core's layout.
pub fn plain(status: u16) -> Vec<u8> {
    format!("<!DOCTYPE html>\n<title>{status}</title>\n<p>{status}</p>\n").into_bytes()
}

/// What comes after a page's bytes. `wait` is how many seconds to wait, where that is known.
pub fn dress(subject: Subject, wait: Option<u64>, language: Language) -> String {
    let (title, text) = words(subject, language);
    let [lang, username, password, enter, back, minutes, plain] = match language {
        Language::English => [
            "en",
            "User name",
            "Password",
            "Sign in",
            "Back",
            "Minutes to wait: ",
            "The first field is for your user name, the second for your password.",
        ],
        Language::Spanish => [
            "es",
            "Usuario",
            "Contrase\u{f1}a",
            "Entrar",
            "Volver",
            "Minutos de espera: ",
            "El primer campo es para su usuario, el segundo para su contrase\u{f1}a.",
        ],
    };
    let class = if matches!(subject, Subject::Status(_)) { " class=\"wrong\"" } else { "" };
    let wait = wait.map(|seconds| format!("<p>{minutes}{}</p>", (seconds + 59) / 60)).unwrap_or_default();
    let hint = match subject {
        Subject::Form | Subject::Status(401) => format!("<noscript><p>{plain}</p></noscript>"),
        _ => String::new(),
    };
    format!(
        "<link rel=\"stylesheet\" href=\"{}\">\n<meta name=\"viewport\" content=\"width=device-width, initial-scale=1\">\n\
         <div id=\"words\" lang=\"{lang}\" data-username=\"{username}\" data-password=\"{password}\" data-enter=\"{enter}\" data-back=\"{back}\">\
         <h1>{title}</h1><p{class}>{text}</p>{wait}{hint}</div>\n<script src=\"{}\"></script>\n",
        STYLE.0, SCRIPT.0
    )
}

/// A page's title and what it means.
fn words(subject: Subject, language: Language) -> (&'static str, &'static str) {
    let (english, spanish) = match subject {
        Subject::Form => (("Sign in", "Sign in to go on to your panel."), ("Entrar", "Entre para seguir a su panel.")),
        Subject::SignedIn => (
            ("Signed in", "You are signed in. Panels will let you in without asking again."),
            ("Sesi\u{f3}n iniciada", "Ha entrado. Los paneles le dejar\u{e1}n pasar sin preguntar de nuevo."),
        ),
        Subject::SignedOut => (
            ("Signed out", "You are signed out, and the panels that you visited are being told."),
            ("Sesi\u{f3}n cerrada", "Ha salido, y se avisa a los paneles que visit\u{f3}."),
        ),
        Subject::Status(400) => (
            ("Request not understood", "The address or the form was damaged on its way. Go back and try again."),
            ("Petici\u{f3}n no entendida", "La direcci\u{f3}n o el formulario lleg\u{f3} da\u{f1}ado. Vuelva atr\u{e1}s e int\u{e9}ntelo de nuevo."),
        ),
        Subject::Status(401) => (
            ("Sign in", "User name or password is wrong, or the page was open for more than ten minutes. Try again."),
            (
                "Entrar",
                "El usuario o la contrase\u{f1}a no es correcto, o la p\u{e1}gina estuvo abierta m\u{e1}s de diez minutos. Int\u{e9}ntelo de nuevo.",
            ),
        ),
        Subject::Status(403) => (
            ("Panel not known", "The panel that sent you here is not registered with this server. Tell the watch desk its address."),
            ("Panel desconocido", "El panel que le env\u{ed}a no est\u{e1} registrado en este servidor. D\u{e9} su direcci\u{f3}n al puesto de guardia."),
        ),
        Subject::Status(404) => (("Not found", "There is nothing at this address."), ("No encontrado", "No hay nada en esta direcci\u{f3}n.")),
        Subject::Status(405) => (
            ("Not possible", "This address does not take that kind of request."),
            ("No es posible", "Esta direcci\u{f3}n no admite ese tipo de petici\u{f3}n."),
        ),
        Subject::Status(429) => (
            ("Wait a little", "Too many wrong passwords, or too many open sign-in pages, from your address."),
            ("Espere un poco", "Demasiadas contrase\u{f1}as incorrectas, o demasiadas p\u{e1}ginas de entrada abiertas, desde su direcci\u{f3}n."),
        ),
        Subject::Status(503) => (
            ("Server busy", "There is no room at the moment: you are not signed in. Try again in a few minutes."),
            ("Servidor ocupado", "No hay sitio por el momento: no ha entrado. Int\u{e9}ntelo de nuevo en unos minutos."),
        ),
        Subject::Status(500) => (
            ("Server fault", "Something is wrong on the server. Tell the watch desk; its log says what it is."),
            ("Fallo del servidor", "Algo va mal en el servidor. Avise al puesto de guardia; su registro dice qu\u{e9} es."),
        ),
        Subject::Status(_) => (
            ("Request not taken", "The request was too long, or came too slowly."),
            ("Petici\u{f3}n no admitida", "La petici\u{f3}n era demasiado larga, o lleg\u{f3} demasiado despacio."),
        ),
    };
    match language {
        Language::English => english,
        Language::Spanish => spanish,
    }
}

#[cfg(test)]
mod tests {
    use super::*;

    #[test]
    fn the_first_known_language_counts() {
        assert_eq!(language("es-ES,es;q=0.9,en;q=0.8"), Language::Spanish);
        assert_eq!(language("fr, en-GB;q=0.8, es;q=0.5"), Language::English);
        assert_eq!(language("de"), Language::English);
        assert_eq!(language("est"), Language::English);
        assert_eq!(language(""), Language::English);
    }

    #[test]
    fn a_page_is_known_by_its_lines() {
        assert_eq!(subject(200, b"<p>200</p>\n<form method"), Subject::Form);
        assert_eq!(subject(200, b"<p>Signed in</p>"), Subject::SignedIn);
        assert_eq!(subject(200, b"<p>Signed out</p>"), Subject::SignedOut);
        assert_eq!(subject(401, b"<form "), Subject::Status(401));
    }

    #[test]
    fn no_words_could_end_their_place_in_the_page() {
        for status in 0..600 {
            for language in [Language::English, Language::Spanish] {
                let (title, text) = words(Subject::Status(status), language);
                assert!(![title, text].iter().any(|words| words.contains(['<', '>', '&', '"'])));
            }
        }
    }
}
