//! The protocol for scripts (README.md has its table): frames of a u32 length and a payload, one answer to each request.
use crate::answer::{caught, DONE, MALFORMED, UNKNOWN};
use crate::events::{is_malformed, u32_at, u64_at};
use crate::feature_generated::{size_prefixed_root_as_feature, size_prefixed_root_as_feature_unchecked};
use crate::header_generated::size_prefixed_root_as_header;
use crate::properties;
use crate::reading::{read, read_feature, Reading};
use crate::tree::{Store, ENDS};
use crate::writing::Writer;
use std::io::{self, BufReader, BufWriter, Read, Write};

type Answer = Result<Vec<u8>, String>;

/// A request, taken from its front.
struct Request<'r>(&'r [u8]);

impl<'r> Request<'r> {
    fn take(&mut self, count: usize) -> Result<&'r [u8], String> {
        let (taken, rest) = self.0.split_at_checked(count).ok_or("request cut short")?;
        self.0 = rest;
        Ok(taken)
    }
    fn byte(&mut self) -> Result<u8, String> {
        Ok(self.take(1)?[0])
    }
    fn number(&mut self) -> Result<u32, String> {
        Ok(u32_at(self.take(4)?, 0))
    }
    fn word(&mut self) -> Result<u64, String> {
        Ok(u64_at(self.take(8)?, 0))
    }
    fn bytes(&mut self) -> Result<&'r [u8], String> {
        let count = self.number()? as usize;
        self.take(count)
    }
    fn store(&mut self) -> Result<Store, String> {
        let mut store = Store { table: self.bytes()?.to_vec(), ..Default::default() };
        for (i, pool) in store.pools.iter_mut().enumerate() {
            let count = self.number()? as usize;
            *pool = if i == ENDS {
                self.take(4 * count)?.chunks(4).map(|word| u32_at(word, 0).into()).collect()
            } else {
                self.take(8 * count)?.chunks(8).map(|word| u64_at(word, 0)).collect()
            };
        }
        Ok(store)
    }
}

fn put_number(to: &mut Vec<u8>, number: usize) {
    to.extend_from_slice(&(number as u32).to_le_bytes());
}

fn put_bytes(to: &mut Vec<u8>, bytes: &[u8]) {
    put_number(to, bytes.len());
    to.extend_from_slice(bytes);
}

fn put_store(to: &mut Vec<u8>, store: &Store) {
    put_bytes(to, &store.table);
    for (i, pool) in store.pools.iter().enumerate() {
        put_number(to, pool.len());
        let width = if i == ENDS { 4 } else { 8 };
        pool.iter().for_each(|word| to.extend_from_slice(&word.to_le_bytes()[..width]));
    }
}

fn put_state(to: &mut Vec<u8>, writer: &Writer) {
    let state = writer.state();
    to.extend_from_slice(&[state.declared, state.current, state.mode, 0]);
    put_number(to, state.parts);
    state.pending.iter().for_each(|count| put_number(to, *count));
    put_number(to, state.properties);
    writer.bounds().iter().for_each(|edge| to.extend_from_slice(&edge.to_le_bytes()));
}

fn put_reading(to: &mut Vec<u8>, reading: &Reading) {
    to.push(reading.number);
    put_bytes(to, &reading.events);
    put_bytes(to, reading.words.as_bytes());
}

const EVENT: u8 = 0;
const FINISH: u8 = 1;
const PROPERTY: u8 = 2;

fn write(request: &mut Request) -> Answer {
    let (declared, detect, promote) = (request.byte()?, request.byte()? != 0, request.byte()? != 0);
    let mut writer = Writer::new(declared, detect, promote);
    let mut answer = vec![DONE];
    for _ in 0..request.number()? {
        match request.byte()? {
            EVENT => {
                let event = request.bytes()?;
                answer.push(if is_malformed(event) { MALFORMED } else { writer.event(event) });
            }
            FINISH => {
                let feature = writer.finish();
                answer.push(DONE);
                put_store(&mut answer, &feature.tree);
                put_bytes(&mut answer, &feature.properties);
                put_bytes(&mut answer, &feature.bytes);
            }
            PROPERTY => {
                let (column, kind, bits, text) = (request.number()?, request.byte()?, request.word()?, request.bytes()?);
                let (number, place) = match properties::value(kind, bits, text) {
                    Ok(value) => (writer.property(column, &value), 0),
                    Err(refused) => (refused.number, refused.place),
                };
                answer.push(number);
                put_number(&mut answer, place);
            }
            _ => return Err("no such item".into()),
        }
        put_state(&mut answer, &writer);
    }
    put_state(&mut answer, &writer);
    let (state, pending) = (writer.state(), writer.pending());
    let list = |i: usize| (0..state.pending[i]).map(|at| pending.word(i, at)).collect();
    put_store(&mut answer, &Store { table: vec![], pools: std::array::from_fn(list) });
    Ok(answer)
}

fn read_store(request: &mut Request) -> Answer {
    let (declared, flags) = (request.byte()?, request.byte()?);
    let mut answer = vec![DONE];
    put_reading(&mut answer, &read(&request.store()?, declared, flags));
    Ok(answer)
}

fn read_flatbuffer(request: &mut Request) -> Answer {
    let (declared, flags, verified) = (request.byte()?, request.byte()?, request.byte()? != 0);
    let bytes = request.bytes()?;
    if verified {
        size_prefixed_root_as_feature(bytes).map_err(|error| format!("{error:?}"))?;
    }
    // SAFETY: where the caller does not ask for the verifier, the bytes are its own, and the stand-in's reads are within them.
    let feature = unsafe { size_prefixed_root_as_feature_unchecked(bytes) };
    let geometry = caught(|| feature.geometry())?.ok_or("a feature without a geometry")?;
    let mut answer = vec![DONE];
    put_reading(&mut answer, &read_feature(bytes, declared, flags));
    put_store(&mut answer, &caught(|| Store::from_geometry(geometry))?);
    put_bytes(&mut answer, caught(|| feature.properties().map(|list| list.bytes()))?.unwrap_or_default());
    Ok(answer)
}

fn read_properties(request: &mut Request) -> Answer {
    let (has_columns, stop) = (request.byte()? != 0, request.number()?);
    let (columns, bytes) = (request.bytes()?, request.bytes()?);
    let values = properties::read(bytes, has_columns.then_some(columns), stop);
    let mut answer = vec![DONE, values.number, values.stopped as u8];
    put_number(&mut answer, values.place);
    put_bytes(&mut answer, &values.records);
    put_bytes(&mut answer, values.words.as_bytes());
    Ok(answer)
}

fn read_header(request: &mut Request) -> Answer {
    let header = size_prefixed_root_as_header(request.bytes()?).map_err(|error| format!("{error:?}"))?;
    let mut answer = vec![DONE, header.geometry_type().0, header.has_z() as u8, header.has_m() as u8];
    answer.extend_from_slice(&header.features_count().to_le_bytes());
    put_number(&mut answer, header.index_node_size().into());
    let columns = header.columns().map(|columns| columns.iter().map(|column| column.type_().0).collect::<Vec<_>>());
    answer.push(columns.is_some() as u8);
    put_bytes(&mut answer, &columns.unwrap_or_default());
    Ok(answer)
}

fn answer(request: &[u8]) -> Vec<u8> {
    let mut rest = Request(request);
    let answer = match rest.byte() {
        Ok(b'W') => write(&mut rest),
        Ok(b'R') => read_store(&mut rest),
        Ok(b'F') => read_flatbuffer(&mut rest),
        Ok(b'P') => read_properties(&mut rest),
        Ok(b'H') => read_header(&mut rest),
        _ => Err("no such request".into()),
    };
    answer.unwrap_or_else(|words| {
        let mut refusal = vec![UNKNOWN];
        put_bytes(&mut refusal, words.as_bytes());
        refusal
    })
}

/// Answers until the requests end.
pub fn serve() -> io::Result<()> {
    let mut requests = BufReader::new(io::stdin());
    let mut answers = BufWriter::new(io::stdout());
    let mut length = [0; 4];
    while requests.read_exact(&mut length).is_ok() {
        let mut request = vec![0; u32::from_le_bytes(length) as usize];
        requests.read_exact(&mut request)?;
        let answer = answer(&request);
        answers.write_all(&(answer.len() as u32).to_le_bytes())?;
        answers.write_all(&answer)?;
        if requests.buffer().is_empty() {
            answers.flush()?;
        }
    }
    answers.flush()
}
