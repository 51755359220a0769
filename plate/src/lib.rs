//! `plate`: prepares a hall's plate. Reads the drawing and the lamps, bakes the light by the proved library, and shows what came out.
pub mod baking;
pub mod commands;
pub mod engine;
pub mod faults;
pub mod files;
pub mod hall;
pub mod light;
pub mod lists;
pub mod man;
pub mod obj;
pub mod part;
pub mod picture;
pub mod volume;

use clap::{CommandFactory, Parser, Subcommand};
use geaidnosa::Vec3;
use std::path::PathBuf;
use std::process::ExitCode;

/// What a command ends with.
pub const GOOD: u8 = 0;
pub const DIFFERS: u8 = 1;
pub const REFUSED: u8 = 3;
pub const SAVED: u8 = 130;

/// Prepares a hall's plate: the light of sun, sky and lamps in an archery hall, baked by a proved library.
///
/// Exit codes: 0 good, 1 differs, 2 usage, 3 refused (with the reason in words), 130 stopped and saved.
#[derive(Parser)]
#[command(name = "plate", version, arg_required_else_help = true)]
struct Cli {
    #[command(subcommand)]
    command: Command,
}

#[derive(Subcommand)]
enum Command {
    /// Write a sample hall, bake it, write its volume and pictures, and say what they show
    Demo(Demo),
    /// Write a commented hall.toml and a small drawing to begin with
    New {
        /// The folder, which is made where it is missing
        dir: PathBuf,
    },
    /// Say everything that is wrong with a hall, in words and with its place, and which way the fronts of its panels are turned
    Check {
        #[arg(required = true)]
        halls: Vec<PathBuf>,
        /// One line of JSON for each hall
        #[arg(long)]
        json: bool,
    },
    /// Foretell the rays and hours of a bake from a sample, with the bounds that are sure, and say how far an unfinished one is
    Plan(Plan),
    /// Bake halls into volume files; Ctrl-C saves, and the same command goes on from there
    Bake(Bake),
    /// Join the files of all shares of a bake (`bake --share`) into the volume
    Join {
        hall: PathBuf,
        #[arg(required = true)]
        shares: Vec<PathBuf>,
        /// The volume file; else the hall's name with .vgrd
        #[arg(short, long)]
        out: Option<PathBuf>,
        /// By which scan the shares were baked; as hall.toml says where it is left out
        #[arg(long, value_enum)]
        scan: Option<engine::Scan>,
    },
    /// Picture of one slice of a volume
    Slice(Slice),
    /// Picture of a target's face: how bright it looks
    Face(FaceArgs),
    /// Picture of the hall as a camera in it sees it
    View(ViewArgs),
    /// The light at positions of a CSV file (columns x, y, z and, if wanted, nx, ny, nz), as CSV
    Look(Look),
    /// What volume files hold
    Stats {
        #[arg(required = true)]
        volumes: Vec<PathBuf>,
    },
    /// Compare two volumes bit for bit (exit 1 where they differ)
    Diff {
        first: PathBuf,
        second: PathBuf,
        /// Picture of where they differ: the slices across z in rows
        #[arg(long)]
        png: Option<PathBuf>,
    },
    /// Judge a volume file: its masks and sun again, and some of its voxels baked again, bit for bit (exit 1 where they differ)
    Verify {
        volume: PathBuf,
        hall: PathBuf,
        /// How many active voxels to bake again, spread over the hall
        #[arg(long, default_value_t = 16)]
        sample: usize,
        /// By which scan the volume was baked; as hall.toml says where it is left out
        #[arg(long, value_enum)]
        scan: Option<engine::Scan>,
    },
    /// What a refusal's number means, and what to do
    Explain { number: u32 },
    /// The lists that the library is handed for a hall, as text, every number by its bits
    Lists { hall: PathBuf },
    /// Completions for a shell, on standard output
    Completions { shell: clap_complete::Shell },
    /// The manual page as roff, on standard output: `plate man | man -l -`
    Man,
}

#[derive(clap::Args)]
pub struct Demo {
    /// The folder, which is made where it is missing
    #[arg(default_value = "plate-demo")]
    dir: PathBuf,
    /// How many threads; all cores where it is left out
    #[arg(long)]
    threads: Option<usize>,
    /// What a ray is tested against; as hall.toml says (bake.scan) where it is left out, else the list. The tree may bake other bits than the list
    #[arg(long, value_enum)]
    scan: Option<engine::Scan>,
}

#[derive(clap::Args)]
pub struct Plan {
    #[arg(required = true)]
    halls: Vec<PathBuf>,
    /// How many threads the bake would have; all cores where it is left out
    #[arg(long)]
    threads: Option<usize>,
    /// One active voxel in how many is baked for the sample; where it is left out one in eight, and in a large hall some 1,024 in all
    #[arg(long)]
    sample: Option<usize>,
    /// Rays a call of the bake
    #[arg(long, default_value_t = 100_000)]
    allowance: u64,
    /// What a ray is tested against; as hall.toml says (bake.scan) where it is left out, else the list. The tree may bake other bits than the list
    #[arg(long, value_enum)]
    scan: Option<engine::Scan>,
}

#[derive(clap::Args)]
pub struct Bake {
    #[arg(required = true)]
    halls: Vec<PathBuf>,
    /// The volume file, where one hall is baked; else each hall's name with .vgrd
    #[arg(short, long)]
    out: Option<PathBuf>,
    /// One machine's share of the voxels, 3/8 for the third of eight: baked into a share file (else named .share3of8) for `join`
    #[arg(long, value_name = "I/N")]
    share: Option<part::Only>,
    /// How many threads; all cores where it is left out. One is the library's own bake; more divide the voxels into shares
    #[arg(long)]
    threads: Option<usize>,
    /// Into how many shares a new bake is divided on this machine; as many as threads where it is left out
    #[arg(long)]
    shares: Option<usize>,
    /// Rays a call: between calls the bake can stop
    #[arg(long, default_value_t = 100_000)]
    allowance: u64,
    /// What a ray is tested against; as hall.toml says (bake.scan) where it is left out, else the list. The tree may bake other bits than the list
    #[arg(long, value_enum)]
    scan: Option<engine::Scan>,
    /// Stop and save at this time of the day, HH:MM (the next one that comes)
    #[arg(long)]
    until: Option<String>,
    /// Save this often, in seconds; where it is left out every ten, and in a large hall a second for each megabyte of the part file
    #[arg(long)]
    save_every: Option<f64>,
    /// Go on from the part file, and refuse where there is none
    #[arg(long, conflicts_with = "fresh")]
    resume: bool,
    /// Begin anew, also where there is a part file
    #[arg(long)]
    fresh: bool,
    /// Lines of JSON in place of the progress bar
    #[arg(long)]
    json: bool,
}

#[derive(clap::Args)]
#[command(group = clap::ArgGroup::new("place").required(true).multiple(false))]
pub struct Slice {
    volume: PathBuf,
    /// The slice across x with this index, seen with the height upwards
    #[arg(long, group = "place")]
    x: Option<usize>,
    /// The slice across the height: a plan, z downwards
    #[arg(long, group = "place")]
    y: Option<usize>,
    /// The slice across z, seen with the height upwards
    #[arg(long, group = "place")]
    z: Option<usize>,
    /// All slices into this folder, at one exposure
    #[arg(long, group = "place", value_name = "DIR", conflicts_with = "png")]
    all: Option<PathBuf>,
    /// What the slices of --all lie across
    #[arg(long, default_value = "z", value_parser = ["x", "y", "z"])]
    across: String,
    /// sun, sky, c0, c1, c2, c3, or E:nx,ny,nz for the irradiance at a normal
    #[arg(long, default_value = "E:0,1,0", allow_hyphen_values = true)]
    of: picture::Of,
    /// Draw the surfaces of this hall where the slice cuts them
    #[arg(long)]
    hall: Option<PathBuf>,
    /// Factor from a number to the picture's brightness; where it is left out, one that brings the brightest hundredth to white
    #[arg(long)]
    exposure: Option<f32>,
    #[arg(long, required_unless_present = "all")]
    png: Option<PathBuf>,
}

#[derive(clap::Args)]
pub struct FaceArgs {
    volume: PathBuf,
    hall: PathBuf,
    /// The face's name in the hall
    name: String,
    /// Add what falls straight from lamps and sun, which a volume does not have
    #[arg(long)]
    direct: bool,
    /// Pixels along the longer side
    #[arg(long, default_value_t = 256, value_parser = clap::value_parser!(u32).range(1..=4096))]
    size: u32,
    #[arg(long)]
    exposure: Option<f32>,
    #[arg(long)]
    png: PathBuf,
}

#[derive(clap::Args)]
pub struct ViewArgs {
    volume: PathBuf,
    hall: PathBuf,
    /// Where the camera stands: x,y,z
    #[arg(long, value_parser = three, allow_hyphen_values = true)]
    from: Vec3,
    /// What it looks at: x,y,z
    #[arg(long, value_parser = three, allow_hyphen_values = true)]
    to: Vec3,
    /// How wide it sees, in degrees
    #[arg(long, default_value_t = 70.0)]
    wide: f32,
    /// Pixels across
    #[arg(long, default_value_t = 960, value_parser = clap::value_parser!(u32).range(16..=4096))]
    size: u32,
    #[arg(long)]
    exposure: Option<f32>,
    #[arg(long)]
    png: PathBuf,
}

#[derive(clap::Args)]
pub struct Look {
    volume: PathBuf,
    /// The CSV file; - for standard input
    positions: PathBuf,
    /// Add what falls straight from this hall's lamps and sun (needs normals)
    #[arg(long)]
    direct: Option<PathBuf>,
}

pub fn three(text: &str) -> Result<Vec3, String> {
    let numbers: Option<Vec<f32>> = text.split(',').map(|n| n.trim().parse().ok().filter(|x: &f32| x.is_finite())).collect();
    match numbers.as_deref() {
        Some([x, y, z]) => Ok(Vec3::new(*x, *y, *z)),
        _ => Err(format!("\"{text}\" is not three numbers x,y,z")),
    }
}

pub fn unit_vector(text: &str) -> Result<Vec3, String> {
    let v = three(text)?;
    let length = hall::vec::dot(v, v);
    if !(length > 1e-12 && length.is_finite()) {
        return Err(format!("\"{text}\" is no direction"));
    }
    Ok(hall::vec::unit(v))
}

/// Runs the command that the arguments name.
pub fn run() -> ExitCode {
    // `plate stats x.vgrd | head -1` ends quietly, as other commands do
    unsafe { libc::signal(libc::SIGPIPE, libc::SIG_DFL) };
    let cli = Cli::parse();
    let ended = match cli.command {
        Command::Demo(args) => commands::demo(&args),
        Command::New { dir } => commands::new(&dir),
        Command::Check { halls, json } => commands::check(&halls, json),
        Command::Plan(args) => commands::plan(&args),
        Command::Bake(args) => commands::bake(&args),
        Command::Join { hall, shares, out, scan } => commands::join(&hall, &shares, out.as_deref(), scan),
        Command::Slice(args) => commands::slice(&args),
        Command::Face(args) => commands::face(&args),
        Command::View(args) => commands::view(&args),
        Command::Look(args) => commands::look(&args),
        Command::Stats { volumes } => commands::stats(&volumes),
        Command::Diff { first, second, png } => commands::diff(&first, &second, png.as_deref()),
        Command::Verify { volume, hall, sample, scan } => commands::verify(&volume, &hall, sample, scan),
        Command::Explain { number } => commands::explain(number),
        Command::Lists { hall } => commands::lists(&hall),
        Command::Completions { shell } => {
            clap_complete::generate(shell, &mut Cli::command(), "plate", &mut std::io::stdout());
            Ok(GOOD)
        }
        Command::Man => {
            print!("{}", man::page(Cli::command()));
            Ok(GOOD)
        }
    };
    match ended {
        Ok(code) => ExitCode::from(code),
        Err(error) => {
            eprintln!("{error:#}");
            ExitCode::from(REFUSED)
        }
    }
}
