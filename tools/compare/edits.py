"""Changed rules: small edits of the staged copy of the crate's files and of the stand-in blob.

`old` is replaced where it first stands behind `after`. `idle` says why no script can notice a change; empty where one must.
"""

from typing import NamedTuple

MOD = "utils/buffer/mod.rs"
PAGED = "utils/buffer/paged/mod.rs"
TIP = "utils/buffer/paged/tip.rs"
WRITER = "utils/buffer/paged/writer.rs"
BLOB = "blob.rs"


class Edit(NamedTuple):
    name: str
    file: str
    after: str
    old: str
    new: str
    idle: str = ""


EDITS = [
    # Footer and verdict.
    Edit("Second is preferred at equal lengths", PAGED, "const fn authoritative", ">=", ">"),
    Edit("the shorter slot is judged first", PAGED, "const fn authoritative", ">=", "<"),
    Edit("the other slot is never judged", PAGED, "using fallback CRC", "authoritative.other()", "authoritative"),
    Edit("a slot of length 0 is valid", PAGED, "fn validate_slot", "len_usize == 0", "false"),
    Edit("a slot of length P is not valid", PAGED, "fn validate_slot", "len_usize > crc_start_idx", "len_usize >= crc_start_idx"),
    Edit("a slot may cover the footer", PAGED, "fn validate_slot", "len_usize > crc_start_idx", "len_usize > buf.len()"),
    Edit("the check of a slot is not compared", PAGED, "fn validate_slot", "!= crc", "!= crc && false"),
    Edit("the slots of a footer trade places", PAGED, "impl Write for Checksum", "self.len1.write(buf);\n        self.crc1.write(buf);\n        self.len2.write(buf);\n        self.crc2.write(buf);", "self.len2.write(buf);\n        self.crc2.write(buf);\n        self.len1.write(buf);\n        self.crc1.write(buf);"),
    Edit("the two slots have each other's place at a truncation", PAGED, "const fn offset(self)", "Self::First => 0,\n            Self::Second => CHECKSUM_SLOT_SIZE", "Self::First => CHECKSUM_SLOT_SIZE,\n            Self::Second => 0"),
    Edit("a page read begins a byte late", PAGED, "fn physical_page(", "Ok((physical_page_start, len))", "Ok((physical_page_start + 1, len))"),
    # Mark.
    Edit("a sync that writes while Dirty does not settle", MOD, "Earlier mutations need", "blob.sync().await?;", ""),
    Edit("a write leaves the mark Clean", MOD, "if !options.contains", "*self = Self::Dirty;", ""),
    Edit("a resize leaves the mark Clean", MOD, "async fn resize", "*self = Self::Dirty;", ""),
    Edit("a settle leaves the mark Dirty", MOD, "async fn sync", "*self = Self::Clean;", "",
         "a settle more than needed shows no other bytes, and the sync has made the flushed slot the durable one"),
    Edit("a sync settles also when Clean", MOD, "async fn sync", "matches!(self, Self::Clean)", "false",
         "a settle of a settled blob changes nothing, and power is up as long as a Clean writer lives"),
    Edit("a sync never settles by itself", MOD, "async fn sync", "matches!(self, Self::Clean)", "true"),
    # Capacity and append.
    Edit("the capacity is at least three pages", WRITER, "fn adjusted_capacity", "page_size * 2", "page_size * 3"),
    Edit("the capacity is at least one page", WRITER, "fn adjusted_capacity", "page_size * 2", "page_size"),
    Edit("the capacity is rounded up by a page too many", WRITER, "fn adjusted_capacity", "capacity.next_multiple_of(page_size)", "(capacity + 1).next_multiple_of(page_size)"),
    Edit("an append that fills the capacity is direct", WRITER, "const fn too_big_for_buffer", "append_len > buffer_capacity", "append_len >= buffer_capacity"),
    Edit("a direct append needs more than fill + P bytes", WRITER, "const fn too_big_for_buffer", ">= fill + page_size", "> fill + page_size"),
    Edit("a direct append needs only P bytes", WRITER, "const fn too_big_for_buffer", ">= fill + page_size", ">= page_size"),
    Edit("no append is direct", WRITER, "const fn too_big_for_buffer", "overflows_capacity && has_full_page_after_fill", "false"),
    Edit("a tip that is exactly full is flushed", TIP, "pub(super) fn append", "end > self.capacity", "end >= self.capacity"),
    Edit("an append answers the size after it", WRITER, "pub async fn append(", "Ok((self, offset))", "Ok((self, offset + buf.len() as u64))"),
    Edit("a direct append writes the fill twice", WRITER, "pub async fn append_owned", "buf.slice(fill..fill + bulk_len)", "buf.slice(0..bulk_len)"),
    Edit("a direct append's rest begins a byte early", WRITER, "pub async fn append_owned", "&buf.as_ref()[fill + bulk_len..]", "&buf.as_ref()[(fill + bulk_len).saturating_sub(1)..buf.len().saturating_sub(1).max((fill + bulk_len).saturating_sub(1))]"),
    Edit("a direct append's pages go a byte late", WRITER, "pub async fn append_owned", "boundary / page_size * physical_page_size", "boundary / page_size * physical_page_size + 1"),
    # Flush and sync.
    Edit("later pages keep the old slot too", WRITER, "fn append_full_pages", "if page == 0 { old_checksum } else { None }", "old_checksum"),
    Edit("the first page does not keep the old slot", WRITER, "fn append_full_pages", "if page == 0 { old_checksum } else { None }", "None"),
    Edit("a remainder behind full pages keeps the old slot", WRITER, "fn to_physical_pages", "if pages_to_write == 0 { durable } else { None }", "durable"),
    Edit("a remainder never keeps the old slot", WRITER, "fn to_physical_pages", "if pages_to_write == 0 { durable } else { None }", "None::<&ActiveChecksum>"),
    Edit("a new slot takes the place of the old one", WRITER, "const fn build_crc_record", "match old_checksum.slot {", "match old_checksum.slot.other() {"),
    Edit("without an old slot the new one is Second", PAGED, "const fn new(len: u16, crc: u32) -> Self", "len1: len,\n            crc1: crc,\n            len2: 0,\n            crc2: 0,", "len1: 0,\n            crc1: 0,\n            len2: len,\n            crc2: crc,"),
    Edit("a remainder is padded with ones", WRITER, "fn to_physical_pages", "put_bytes(0,", "put_bytes(255,"),
    Edit("a remainder behind full pages is not written at the flushed length", WRITER, "fn partial_page_dirty", "full_pages > 0 ||", "false ||"),
    Edit("an unchanged remainder is written again", WRITER, "fn partial_page_dirty", "state.len as usize != partial_len", "true || state.len as usize != partial_len"),
    Edit("a remainder that was never written is left out", WRITER, "fn partial_page_dirty", "is_none_or", "is_some_and"),
    Edit("a flush writes the remainder too", WRITER, "if self.buffer.append(buf) {", "self.flush_internal(false, false)", "self.flush_internal(true, false)"),
    Edit("a sync leaves the remainder out", WRITER, "pub async fn sync(mut self)", "flush_internal(true, true)", "flush_internal(false, true)"),
    Edit("a sync's write is not settled", WRITER, "pub async fn sync(mut self)", "flush_internal(true, true)", "flush_internal(true, false)",
         "the flush then answers that it settled nothing, and the sync goes on to settle"),
    Edit("a sync's write is not settled, and nothing settles it", WRITER, "if sync {", "WriteOptions::SYNC | WriteOptions::DONT_CACHE", "WriteOptions::DONT_CACHE"),
    Edit("a flush keeps the durable slot for the next page", WRITER, "A new tip page has no durable", "self.durable_page_state = None;", ""),
    Edit("Clean does not make the flushed slot the durable one", WRITER, "async fn flush_internal", "self.durable_page_state = self.partial_page_state;", "",
         "the durable slot is the flushed one already whenever no sync was started"),
    Edit("a sync that writes leaves the durable slot", WRITER, "Publish the flushed checksum", "self.durable_page_state = partial_page_state;", "",
         "the mark is Clean then, and the next flush makes the flushed slot the durable one"),
    Edit("a sync without a write leaves the durable slot", WRITER, "Everything flushed is durable", "self.durable_page_state = self.partial_page_state;", "",
         "the mark is Clean then, and the next flush makes the flushed slot the durable one"),
    # Opening.
    Edit("an opening keeps an incomplete last page", WRITER, "async fn read_last_valid_page", "partial_bytes != 0", "false"),
    Edit("an opening keeps Rejected pages on the blob", WRITER, "The page is invalid.", "invalid_data_found = true;", ""),
    Edit("an opening takes a Partial page for a whole one", WRITER, "async fn read_last_valid_page", "if len != page_size", "if false"),
    Edit("an opening's resize is not settled", WRITER, "pub async fn open(", "blob.sync().await?;", ""),
    Edit("an opening without a drop is Clean", WRITER, "pub async fn open(", "let needs_sync = !invalid_data_found", "let needs_sync = false"),
    Edit("an opening with a drop is Dirty", WRITER, "pub async fn open(", "let needs_sync = !invalid_data_found", "let needs_sync = true",
         "the drop was settled, so a further settle shows no other bytes, and the flushed slot is the durable one"),
    Edit("an opening forgets the slot of a Partial page", WRITER, "pub async fn open(", "Some((partial_page, crc_record)) => (pages - 1, Some(crc_record)", "Some((partial_page, crc_record)) => (pages - 1, None"),
    Edit("an opening's durable slot is absent", WRITER, "pub async fn open(", "durable_page_state: partial_page_state,", "durable_page_state: None,"),
    # Truncation.
    Edit("a truncation to the size itself cuts", WRITER, "pub async fn truncate", "size < self.size()", "size <= self.size()"),
    Edit("a truncation does not sync first", WRITER, "async fn shrink(", "self = self.sync().await?;", ""),
    Edit("a truncation does not end with a sync", WRITER, "pub async fn truncate", "self.sync().await", "Ok(self)"),
    Edit("a truncation never resizes", WRITER, "async fn shrink(", "new_physical_size != current_physical_size", "false"),
    Edit("a truncation resizes always", WRITER, "async fn shrink(", "new_physical_size != current_physical_size", "true",
         "a resize to the length that the blob has changes no byte, and what follows settles either way"),
    Edit("a truncation into a page keeps a page more", WRITER, "async fn shrink(", "u64::from(partial_bytes > 0)", "1"),
    Edit("a truncation takes a page that covers too little", WRITER, "async fn shrink_to_partial", "(page_data.len() as u64) < partial_bytes", "false"),
    Edit("a truncation refuses a page that covers just enough", WRITER, "async fn shrink_to_partial", "(page_data.len() as u64) < partial_bytes", "(page_data.len() as u64) <= partial_bytes"),
    Edit("a truncation to a boundary leaves the tip", WRITER, "requires no CRC-slot rewrite", "self.buffer.replace(tail_offset, &[]);", ""),
    Edit("a truncation to a boundary leaves the flushed slot", WRITER, "requires no CRC-slot rewrite", "self.partial_page_state = None;", ""),
    Edit("a truncation to a boundary leaves the durable slot", WRITER, "requires no CRC-slot rewrite", "self.durable_page_state = None;", "",
         "the sync that ends the truncation makes the flushed slot the durable one"),
    Edit("a truncation leaves the flushed slot", WRITER, "Both active and durable state", "self.partial_page_state = Some(final_record);", ""),
    Edit("a truncation leaves the durable slot", WRITER, "Both active and durable state", "self.durable_page_state = Some(final_record);", "",
         "the sync that ends the truncation makes the flushed slot the durable one"),
    Edit("a truncation leaves the old slot standing", WRITER, "Clear the old slot", "Checksum::slot_bytes(0, 0).to_vec()", "Vec::<u8>::new()"),
    Edit("a truncation zeroes only the length of the old slot", WRITER, "Clear the old slot", "Checksum::slot_bytes(0, 0).to_vec()", "Checksum::slot_len_bytes(0).to_vec()"),
    Edit("a truncation writes the new slot at once", WRITER, "Stage the new slot", "Checksum::slot_bytes(0, new_crc)", "Checksum::slot_bytes(new_len, new_crc)"),
    Edit("a truncation's new slot takes the place of the old one", WRITER, "let old_slot = old_checksum.slot;", "old_slot.other()", "old_slot"),
    Edit("a truncation's first write is not settled", WRITER, "let staged_slot", "WriteOptions::SYNC | ", ""),
    Edit("a truncation's second write is not settled", WRITER, "let published_len", "WriteOptions::SYNC | ", ""),
    Edit("a truncation's third write is not settled", WRITER, "let old_slot_offset", "WriteOptions::SYNC | ", "",
         "the sync that ends the truncation settles it, and nothing can fail between the two"),
    Edit("a truncation's check is that of the whole page", WRITER, "async fn shrink_to_partial", "Crc32::checksum(new_data)", "Crc32::checksum(page_data.as_ref())"),
    # The stand-in blob: that its rules and those of the port's kinds are held against each other.
    Edit("blob: a write may not end at the ceiling", BLOB, "fn write(&mut self", "> u128::from(self.ceiling)", ">= u128::from(self.ceiling)"),
    Edit("blob: the count is one less", BLOB, "fn write(&mut self", "(cut - self.written)", "cut.saturating_sub(1).saturating_sub(self.written)"),
    Edit("blob: a cut write stores nothing", BLOB, "fn write(&mut self", "self.store(offset as usize, &bytes[..stored as usize]);", "if stored == bytes.len() as u64 {\n            self.store(offset as usize, bytes);\n        }"),
    Edit("blob: a cut write leaves the power up", BLOB, "fn write(&mut self", "self.power = false;", ""),
    Edit("blob: a settle settles nothing", BLOB, "fn settle(&mut self", "self.settled.clone_from(&self.working);", ""),
    Edit("blob: a settle works without power", BLOB, "fn settle(&mut self", "!self.power", "false"),
    Edit("blob: a resize works without power", BLOB, "fn resize(&mut self", "|| !self.power", ""),
    Edit("blob: a resize is settled at once", BLOB, "fn resize(&mut self", "self.through()", "true"),
    Edit("blob: a read works without power", BLOB, "fn read(&self", "!self.power", "false"),
    Edit("blob: a read looks at the power before the length", BLOB, "fn read(&self", "if end >", "if self.power && end >"),
    Edit("blob: a restart takes the other length", BLOB, "fn restart(&mut self", "if bit(0)", "if !bit(0)"),
    Edit("blob: a restart uses the length's bit again", BLOB, "fn restart(&mut self", "bit(place + 1)", "bit(place)"),
    Edit("blob: the pattern's highest bit comes first", BLOB, "fn restart(&mut self", ">> (k % 8)", ">> (7 - k % 8)"),
    Edit("blob: the pattern does not go round", BLOB, "fn restart(&mut self", "pattern[k / 8 % pattern.len()]", "pattern[(k / 8).min(pattern.len() - 1)]"),
    Edit("blob: an empty pattern is all ones", BLOB, "fn restart(&mut self", "!pattern.is_empty() &&", "pattern.is_empty() ||"),
    Edit("blob: a restart does not count anew", BLOB, "fn restart(&mut self", "self.written = 0;", ""),
    Edit("blob: a restart leaves the power down", BLOB, "fn restart(&mut self", "self.power = true;", ""),
]
