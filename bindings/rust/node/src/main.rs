//! The program of a node: its words are those of `python3 -m tellwydar.net`.
use clap::{Args, Parser};
use signal_hook::consts::{SIGINT, SIGTERM};
use signal_hook::flag;
use signal_hook::low_level::pipe;
use std::error::Error;
use std::fs;
use std::io::{self, Write};
use std::path::{Path, PathBuf};
use std::process::ExitCode;
use std::sync::Arc;
use std::sync::atomic::{AtomicBool, Ordering};
use tellwydar::{Front, Linear, LocalRead, LocalWrite};
use tellwydar_node::{
    Config, Fault, FrontEnd, Key, Losses, Node, Options, Port, Script, ask, merge, say, write_new_keys,
};

/// A node of a cluster: one process on a machine of its own
#[derive(Parser)]
#[command(bin_name = "tellwydar-node", disable_help_subcommand = true)]
enum Asked {
    /// Runs a node until SIGTERM or SIGINT
    Node(Given),
    /// Has the node at a socket answer the lines of the standard input: calls, health, status, metrics
    Client { socket: PathBuf },
    /// Prints the report of the run that the logs of one chapter are
    Merge {
        /// Where no order has all entries, the report of those that one has
        #[arg(long)]
        cut: bool,
        #[arg(required = true)]
        logs: Vec<PathBuf>,
    },
    /// Makes a secret key in a new FILE, and prints its public key
    Keys { file: PathBuf },
}

/// How a node is asked for.
#[derive(Args)]
struct Given {
    /// Which process of the cluster it is, from 0
    #[arg(long, value_name = "N")]
    me: u8,
    /// The configuration, which is the same on all machines
    #[arg(long, value_name = "FILE")]
    config: PathBuf,
    /// A new file, or with --resume the log of this process
    #[arg(long, value_name = "FILE")]
    log: PathBuf,
    /// Makes the calls of this file, and prints their answers
    #[arg(long, value_name = "FILE")]
    script: Option<PathBuf>,
    /// Programs on this machine call the node here
    #[arg(long, value_name = "FILE", conflicts_with = "script")]
    socket: Option<PathBuf>,
    /// The secret key, where the configuration has keys
    #[arg(long, value_name = "FILE")]
    secret: Option<PathBuf>,
    /// Each entry is on the disk before its frames go out
    #[arg(long)]
    sync: bool,
    /// Goes on from the log
    #[arg(long)]
    resume: bool,
    /// For tests, what happens to messages
    #[arg(long, value_name = "SEED,LOSS%,DUPLICATES%,REORDER%,DELAY_MS")]
    lossy: Option<Losses>,
}

/// The text of a file, or why there is none, with its name.
fn text_of(path: &Path) -> Result<String, String> {
    fs::read_to_string(path).map_err(|why| format!("{}: {why}", path.display()))
}

/// Runs a node of this front end.
fn run<F: Front>(given: &Given, config: &Config, script: Option<&Script>) -> Result<(), Box<dyn Error>> {
    let secret = given.secret.as_deref().map(Key::read_secret).transpose()?;
    let Given { me, sync, resume, lossy: losses, .. } = *given;
    let mut node = Node::<F>::open(config, &Options { me, log: given.log.clone(), resume, secret, sync, losses })?;
    let end = Arc::new(AtomicBool::new(false));
    for signal in [SIGTERM, SIGINT] {
        flag::register(signal, Arc::clone(&end))?;
        pipe::register(signal, node.bell()?)?;
    }
    if !config.sync && !sync {
        say("without --sync a crash of the machine may lose entries that others have seen; \
             a crash of this program loses none");
    }
    let done = match (script, &given.socket) {
        (Some(script), _) => script.run(&mut node, &mut io::stdout().lock()),
        (_, Some(socket)) => Port::open(socket, node.bell()?)?.serve(&mut node, &end),
        _ => Ok(()),
    };
    match done {
        Err(Fault::Rung) => {}
        done => done?,
    }
    while !end.load(Ordering::Relaxed) {
        node.serve(None)?;
    }
    Ok(())
}

fn run_node(given: &Given) -> Result<(), Box<dyn Error>> {
    let at = |path: &Path, why: Fault| format!("{}: {why}", path.display());
    let config: Config = text_of(&given.config)?.parse().map_err(|why| at(&given.config, why))?;
    let parsed = |path: &PathBuf| Script::parse(&text_of(path)?, &config.registers).map_err(|why| at(path, why));
    let script = given.script.as_ref().map(parsed).transpose()?;
    match config.front {
        FrontEnd::Linear => run::<Linear>(given, &config, script.as_ref()),
        FrontEnd::LocalRead => run::<LocalRead>(given, &config, script.as_ref()),
        FrontEnd::LocalWrite => run::<LocalWrite>(given, &config, script.as_ref()),
    }
}

fn answer(asked: Asked) -> Result<(), Box<dyn Error>> {
    match asked {
        Asked::Node(given) => run_node(&given)?,
        Asked::Client { socket } => ask(&socket, io::stdin().lock(), io::stdout().lock())
            .map_err(|why| format!("{}: {why}", socket.display()))?,
        Asked::Merge { logs, cut } => io::stdout().write_all(&merge(&logs, cut)?)?,
        Asked::Keys { file } => writeln!(io::stdout(), "key = \"{}\"", write_new_keys(&file)?.text())?,
    }
    Ok(())
}

fn main() -> ExitCode {
    match answer(Asked::parse()) {
        Ok(()) => ExitCode::SUCCESS,
        Err(why) => {
            say(why);
            ExitCode::FAILURE
        }
    }
}
