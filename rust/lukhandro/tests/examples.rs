//! The examples in Rust run; those in C do in `served`.

mod headway {
    include!("../../../examples/headway.rs");

    #[test]
    fn the_rust_example_runs() {
        main().expect("an accepted trial");
    }
}

mod sheet {
    include!("../../../examples/sheet.rs");

    #[test]
    fn the_ten_lines_run() {
        main().expect("a model that is built and tried");
    }
}
