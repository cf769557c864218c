//! The dryer's settings file. It sees whole requests only.

use std::fs::{self, File};
use std::io::{self, ErrorKind, Read, Write};
use std::path::PathBuf;

/// What a request asks for, as far as it is kept.
#[derive(Default)]
pub struct Asked {
    pub method: String,
    pub path: String,
    pub part: bool, // a Content-Range
    pub conditional: bool,
    pub content: Vec<u8>,
}

pub struct Gateway {
    folder: PathBuf,
}

impl Gateway {
    pub fn open(folder: &str) -> io::Result<Gateway> {
        match fs::create_dir(folder) {
            Err(why) if why.kind() != ErrorKind::AlreadyExists => Err(why),
            _ => Ok(Gateway { folder: folder.into() }),
        }
    }

    /// Written beside the old file, forced to the disk, then put in its place at once.
    fn keep(&self, content: &[u8]) -> io::Result<()> {
        let fresh = self.folder.join("settings.new");
        let written = File::create(&fresh).and_then(|mut file| {
            file.write_all(content)?;
            file.sync_all()
        });
        if let Err(why) = written.and_then(|()| fs::rename(&fresh, self.folder.join("settings"))) {
            let _ = fs::remove_file(&fresh); // on a full disk, its room is wanted
            return Err(why);
        }
        File::open(&self.folder)?.sync_all()
    }

    /// The status of the answer, how long it is, and its content, which is read as it is sent: who does not take it makes us keep nothing of it.
    pub fn answer(&self, asked: &Asked) -> (u16, u64, Box<dyn Read>) {
        let text = |status, text: &'static str| -> (u16, u64, Box<dyn Read>) {
            (status, text.len() as u64, Box::new(text.as_bytes()))
        };
        if asked.path != "/settings" {
            return text(404, "no such thing here\n");
        }
        match asked.method.as_str() {
            "PUT" if asked.part => text(400, "a part is not taken for a whole\n"),
            "GET" | "PUT" if asked.conditional => text(412, "conditions are not taken\n"),
            "PUT" => match self.keep(&asked.content) {
                Ok(()) => text(200, "settings kept\n"),
                Err(_) => text(500, "the settings could not be kept\n"),
            },
            "GET" => match File::open(self.folder.join("settings"))
                .and_then(|file| Ok((file.metadata()?.len(), file)))
            {
                Ok((length, file)) => (200, length, Box::new(file)),
                Err(why) if why.kind() == ErrorKind::NotFound => text(404, "no settings yet\n"),
                Err(_) => text(500, "the settings could not be read\n"),
            },
            _ => text(405, "not with this method\n"),
        }
    }
}
