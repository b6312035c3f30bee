//! Pyhtirso's front: the sign-on server that a watch desk runs. It speaks HTTP and TLS, checks passwords, keeps the ticket table and tells
//! panels; what is answered is the proved core's, which it asks one call at a time.
#![deny(unsafe_code)]

mod clock;
mod config;
mod crypt;
mod desk;
mod frames;
mod front;
mod limits;
mod log;
mod outward;
mod page;
mod pipe;
mod process;
mod queue;
mod reply;
mod routes;
mod store;
mod tls;
mod users;

use clap::{Parser, Subcommand};
use config::Config;
use desk::Desk;
use outward::Outward;
use queue::Queue;
use reply::Replies;
use routes::Front;
use std::path::PathBuf;
use std::process::ExitCode;
use std::sync::Arc;
use tokio::net::TcpListener;
use tokio::signal::unix::{signal, SignalKind};
use tokio::sync::watch;
use tokio_rustls::TlsAcceptor;

/// The exit status of what only the operator can put right: starting again would not.
const OPERATOR: u8 = 78;

/// A sign-on server for ranch panels that speaks CAS, over a proved core.
#[derive(Parser)]
#[command(name = "pyhtirso", version)]
struct Arguments {
    #[command(subcommand)]
    command: Command,
}

#[derive(Subcommand)]
enum Command {
    /// Runs the server until it is told to stop.
    Serve {
        #[arg(long, value_name = "FILE")]
        config: PathBuf,
    },
    /// Asks for a user's password and stores its hash.
    User {
        name: String,
        #[arg(long, value_name = "FILE")]
        config: PathBuf,
    },
    /// Takes this machine's clock for right, where it is more than a day beyond the table's. The server must be stopped.
    ClockIsRight {
        #[arg(long, value_name = "FILE")]
        config: PathBuf,
    },
    /// Says what is wrong with configuration, users, certificates, register or table.
    Check {
        #[arg(long, value_name = "FILE")]
        config: PathBuf,
    },
}

fn main() -> ExitCode {
    let done = match Arguments::parse().command {
        Command::Serve { config } => config::read(&config).and_then(|config| serve(&config)),
        Command::User { name, config } => config::read(&config).and_then(|config| user(&config, &name)),
        Command::ClockIsRight { config } => config::read(&config).and_then(|config| clock_is_right(&config)),
        Command::Check { config } => config::read(&config).and_then(|config| check(&config)),
    };
    match done {
        Ok(()) => ExitCode::SUCCESS,
        Err(wrong) => {
            eprintln!("pyhtirso: {wrong}");
            ExitCode::from(OPERATOR)
        }
    }
}

fn serve(config: &Config) -> Result<(), String> {
    process::prepare()?;
    let tls = config.tls.as_ref().map(tls::server).transpose()?.map(TlsAcceptor::from);
    let outward = Outward::new(config)?;
    users::read(&config.users.path)?;
    let desk = Desk::open(config, false)?;
    let queue = Queue::start(desk, process::stopped).map_err(|error| error.to_string())?;
    let replies = Replies { policy: reply::content_policy(&config.panels) };
    let front = Arc::new(Front { queue, outward, replies, forwarded_from: config.forwarded_from.clone() });
    let runtime = tokio::runtime::Builder::new_multi_thread().worker_threads(2).enable_all().build().map_err(|error| error.to_string())?;
    runtime.block_on(listen(config, tls, front))
}

async fn listen(config: &Config, tls: Option<TlsAcceptor>, front: Arc<Front>) -> Result<(), String> {
    let listener = TcpListener::bind(config.listen).await.map_err(|error| format!("{}: {error}", config.listen))?;
    let address = listener.local_addr().map_err(|error| error.to_string())?;
    let scheme = if tls.is_some() { "https" } else { "http" };
    log::line(format_args!("listening on {scheme}://{address}/cas/login, {} panels", config.panels.len()));
    let (stop, stops) = watch::channel(false);
    let mut terminate = signal(SignalKind::terminate()).map_err(|error| error.to_string())?;
    let mut interrupt = signal(SignalKind::interrupt()).map_err(|error| error.to_string())?;
    let house = front.queue.clone();
    tokio::spawn(async move { house.keep_house().await });
    let outward = front.outward.clone();
    let serving = tokio::spawn(front::serve(listener, tls, front, stops));
    tokio::select! {
        _ = terminate.recv() => {}
        _ = interrupt.recv() => {}
    }
    log::line("stopping");
    // It is there to hear it.
    let _ = stop.send(true);
    let _ = serving.await;
    outward.settle().await;
    log::line("stopped");
    Ok(())
}

fn user(config: &Config, name: &str) -> Result<(), String> {
    let password = process::ask_password(name)?;
    users::store(&config.users.path, name, &password)?;
    println!("{name} is stored in {}", config.users.path.display());
    Ok(())
}

fn clock_is_right(config: &Config) -> Result<(), String> {
    process::prepare()?;
    Desk::open(config, true)?;
    println!("the table's clock is this machine's");
    Ok(())
}

fn check(config: &Config) -> Result<(), String> {
    config.tls.as_ref().map(tls::server).transpose()?;
    tls::trusted(config)?;
    users::read(&config.users.path)?;
    println!("{}", desk::check(config)?);
    Ok(())
}
