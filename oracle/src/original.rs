//! Asks the original for the object of a job.

use std::env;
use std::fs;
use std::io;
use std::path::PathBuf;
use std::process;

use crate::emit::ebpf::elf::BpfObject;
use crate::ir::{ProgramIr, UnitIr};
use crate::job::Job;

/// The original writes to a file, so each process has one file in a folder of its own. The folder goes when this does.
pub struct Scratch {
    folder: PathBuf,
    file: PathBuf,
}

impl Scratch {
    pub fn new() -> io::Result<Self> {
        let mut attempt = 0;
        loop {
            let folder = env::temp_dir().join(format!("oracle-{}-{attempt}", process::id()));
            match fs::create_dir(&folder) {
                Ok(()) => return Ok(Self { file: folder.join("object"), folder }),
                Err(error) if error.kind() == io::ErrorKind::AlreadyExists => attempt += 1,
                Err(error) => return Err(error),
            }
        }
    }

    /// The bytes that the original writes, or the words with which it refuses.
    pub fn object(&self, job: Job) -> Result<Vec<u8>, String> {
        let mut object = BpfObject::new();
        object.add_license(&licensed(job.licence))?;
        object.add_maps(&job.maps)?;
        for program in job.programs {
            object.add_program(&program.section, &program.symbol, program.compiled)?;
        }
        object.write(&self.file)?;
        self.written()
    }

    #[cfg(not(feature = "memory"))]
    fn written(&self) -> Result<Vec<u8>, String> {
        fs::read(&self.file).map_err(|error| format!("failed to read object file: {error}"))
    }

    #[cfg(feature = "memory")]
    fn written(&self) -> Result<Vec<u8>, String> {
        Ok(crate::memory::take())
    }
}

impl Drop for Scratch {
    fn drop(&mut self) {
        // Nobody is left to hear of a failure here, and the system clears its temporary folder anyway.
        let _ = fs::remove_dir_all(&self.folder);
    }
}

/// With no unit the original takes its own licence.
fn licensed(licence: Option<String>) -> ProgramIr {
    ProgramIr { maps: Vec::new(), units: licence.into_iter().map(|license| UnitIr { license }).collect() }
}
