// No header of a C library is wanted: the kit's compiler has none.
typedef unsigned char u8;
typedef unsigned short u16;
typedef unsigned long usize;

// What is timed: some octets, and a number of them; the answer is one number, 0 where they are refused.
typedef usize call(const u8 *, usize);

// A command made of a packet ID, a sequence control, a service, a subtype and data, and written; the answer is its octets.
typedef usize writer(u16, u16, u8, u8, const u8 *, usize, u8 *, usize);

// The same of telemetry, with its time before the data.
typedef usize tm_writer(u16, u16, u8, u8, const u8 *, usize, const u8 *, usize, u8 *, usize);

// A step of the splitter from a place on: where the next packet begins, 0 where this one is not accepted.
typedef usize step(const u8 *, usize, usize);

// The Rust, by its algorithms in C.
void crate_start(void);
call crate_table, crate_sixteen, crate_bits, crate_read, crate_read_bits, crate_judge, crate_judge_bits;
writer crate_write, crate_write_bits;
step crate_step, crate_step_bits;

// Telemetry with a time of seven octets, by its layout in C, with the same checksums.
call c_tm_read, c_tm_read_bits, c_tm_judge, c_tm_judge_bits;
tm_writer c_tm_write, c_tm_write_bits;

// The Rust itself, where it is linked.
call rust_table, rust_sixteen, rust_bits, rust_read, rust_judge;
writer rust_write;

// The port.
call port_table, port_no_table, port_read, port_judge, port_tm_read, port_tm_judge;
writer port_write;
tm_writer port_tm_write;
step port_step;
