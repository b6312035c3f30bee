//! The listening side: connections taken up to a limit, TLS, time-outs, and an end in which nobody is cut off in the middle of an answer.

use crate::limits::{Place, Places};
use crate::log;
use crate::routes::Front;
use hyper::server::conn::Http;
use hyper::service::service_fn;
use std::net::IpAddr;
use std::sync::{Arc, Mutex, PoisonError};
use std::time::Duration;
use tokio::io::{AsyncRead, AsyncWrite};
use tokio::net::{TcpListener, TcpStream};
use tokio::sync::{watch, OwnedSemaphorePermit, Semaphore};
use tokio::time::{sleep, sleep_until, timeout, Instant};
use tokio_rustls::TlsAcceptor;

/// Connections at a time. Beyond it the next waits until one ends, which it does when nothing is asked on it for the time of `IDLE`. One address
/// has a third of what is left, so alone a quarter; a connection beyond that is closed at once.
const CONNECTIONS: u32 = 2_048;
const CONNECTION_PARTS: usize = 3;
/// How long a TLS handshake may take, and a request's head.
const HANDSHAKE: Duration = Duration::from_secs(10);
const HEAD: Duration = Duration::from_secs(10);
/// How long a connection waits for its next request, and how long what is under way has when the connection is to end.
const IDLE: Duration = Duration::from_secs(30);
const LAST: Duration = Duration::from_secs(15);
/// The longest head. A target that is too long is told so as long as it fits in here.
const HEAD_LONGEST: usize = 32_768;

/// Takes connections until `stop` says so, then waits for those that are open.
pub async fn serve(listener: TcpListener, tls: Option<TlsAcceptor>, front: Arc<Front>, mut stop: watch::Receiver<bool>) {
    let places = Arc::new(Semaphore::new(CONNECTIONS as usize));
    let shares = Places::new(CONNECTIONS as usize, CONNECTION_PARTS);
    loop {
        let place = tokio::select! {
            place = places.clone().acquire_owned() => place,
            _ = stop.changed() => break,
        };
        let place = match place {
            Ok(place) => place,
            Err(_) => break,
        };
        tokio::select! {
            taken = listener.accept() => match taken {
                Ok((stream, peer)) => {
                    let peer = canonical(peer.ip());
                    let share = shares.take(peer.into());
                    // A proxy that is named has everybody's connections.
                    if share.is_some() || front.forwarded_from.contains(&peer) {
                        tokio::spawn(connection(stream, peer, tls.clone(), front.clone(), stop.clone(), (place, share)));
                    }
                }
                Err(error) => {
                    log::line(format_args!("no connection taken: {error}"));
                    sleep(Duration::from_millis(100)).await;
                }
            },
            _ = stop.changed() => break,
        }
    }
    drop(listener);
    // Those that do not end in time are cut.
    let _ = timeout(LAST, places.acquire_many(CONNECTIONS)).await;
}

async fn connection(
    stream: TcpStream,
    peer: IpAddr,
    tls: Option<TlsAcceptor>,
    front: Arc<Front>,
    stop: watch::Receiver<bool>,
    _place: (OwnedSemaphorePermit, Option<Place>),
) {
    // Answers are small and go out at once.
    let _ = stream.set_nodelay(true);
    match tls {
        None => requests(stream, peer, front, stop).await,
        Some(tls) => {
            if let Ok(Ok(stream)) = timeout(HANDSHAKE, tls.accept(stream)).await {
                requests(stream, peer, front, stop).await;
            }
        }
    }
}

/// The requests of a connection. One that fails, or is sent too slowly, ends it.
async fn requests<S>(stream: S, peer: IpAddr, front: Arc<Front>, mut stop: watch::Receiver<bool>)
where
    S: AsyncRead + AsyncWrite + Unpin + Send + 'static,
{
    let asked = Arc::new(Mutex::new(Instant::now()));
    let asks = asked.clone();
    let service = service_fn(move |request| {
        *asks.lock().unwrap_or_else(PoisonError::into_inner) = Instant::now();
        front.clone().handle(peer, request)
    });
    let connection =
        Http::new().http1_only(true).http1_header_read_timeout(HEAD).max_buf_size(HEAD_LONGEST).serve_connection(stream, service);
    tokio::pin!(connection);
    loop {
        let idle = *asked.lock().unwrap_or_else(PoisonError::into_inner) + IDLE;
        if idle <= Instant::now() {
            break;
        }
        tokio::select! {
            _ = connection.as_mut() => return,
            _ = sleep_until(idle) => {}
            _ = stop.changed() => break,
        }
    }
    connection.as_mut().graceful_shutdown();
    let _ = timeout(LAST, connection).await;
}

/// An IPv4 address that a listener for both kinds tells as IPv6, as what it is.
fn canonical(address: IpAddr) -> IpAddr {
    match address {
        IpAddr::V6(v6) => v6.to_ipv4_mapped().map_or(address, IpAddr::V4),
        IpAddr::V4(_) => address,
    }
}
