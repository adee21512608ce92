//! The original's `emit`: its elf.rs and insn.rs as they stand, and the compiled program that both ends of elf.rs share.

pub mod ebpf {
    pub mod elf {
        include!(concat!(env!("OUT_DIR"), "/elf.rs"));
    }

    pub mod insn {
        include!(concat!(env!("OUT_DIR"), "/insn.rs"));
    }

    pub mod tracepoint {
        use super::elf::ProgramReloc;

        #[derive(Debug, Clone)]
        pub struct CompiledProgram {
            pub code: Vec<u8>,
            pub relocs: Vec<ProgramReloc>,
        }
    }
}
