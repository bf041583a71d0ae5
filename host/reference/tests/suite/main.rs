//! Properties of the reference model, of the checks around it and of the comparison.

mod borrowed;
mod broken_routines;
mod commands;
mod comparison;
mod demand3;
mod dropped;
mod every_history;
mod faulty;
mod faulty_drops;
mod faulty_lists;
mod faulty_reader;
mod faulty_routines;
mod faulty_writer;
mod generators;
mod histories;
mod lists;
mod recording;
mod routines;
mod sellers_errors;
mod table_of_runs;
mod texts;
mod well_formed;
mod writing;
mod wrong_routines;
