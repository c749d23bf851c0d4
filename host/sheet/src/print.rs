//! How a program that makes a sheet ends.

use crate::Sheet;
use std::process::ExitCode;

/// Prints the sheet, or what went wrong to standard error. Status 0 where the sheet is clean, 1 where it is not, 2 where
/// there is none.
pub fn print(result: Result<Sheet, String>) -> ExitCode {
    match result {
        Ok(sheet) => {
            print!("{}", sheet.text);
            ExitCode::from(u8::from(!sheet.is_clean))
        }
        Err(error) => {
            eprintln!("{error}");
            ExitCode::from(2)
        }
    }
}
