fn main(){ println!("cargo::rustc-link-search=native=SCRATCH/obj"); println!("cargo::rustc-link-lib=static=shapes"); println!("cargo::rerun-if-changed=SCRATCH/obj/libshapes.a"); }
