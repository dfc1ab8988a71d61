//! Memory maps: a plain reader of borrowed descriptors, which tests each bound.

const LENGTH: usize = 40;

#[derive(Clone, Copy)]
pub struct Descriptor {
    pub ty: u32,
    pub phys_start: u64,
    pub virt_start: u64,
    pub page_count: u64,
    pub attributes: u64,
}

impl Descriptor {
    fn read(bytes: &[u8; LENGTH]) -> Descriptor {
        let number = |i: usize| u64::from_le_bytes(bytes.as_chunks().0[i]);
        let [ty, phys_start, virt_start, page_count, attributes] = std::array::from_fn(number);
        Descriptor { ty: ty as u32, phys_start, virt_start, page_count, attributes }
    }
}

#[derive(Clone, Copy)]
pub struct Map<'a> {
    buffer: &'a [u8],
    stride: usize,
    length: usize,
}

impl<'a> Map<'a> {
    pub fn new(buffer: &'a [u8], stride: usize) -> Option<Map<'a>> {
        if stride < LENGTH || stride % 8 != 0 || buffer.len() % stride != 0 {
            return None;
        }
        Some(Map { buffer, stride, length: buffer.len() / stride })
    }

    fn get(&self, i: usize) -> Option<Descriptor> {
        if i >= self.length {
            return None;
        }
        self.buffer.get(i * self.stride..)?.first_chunk().map(Descriptor::read)
    }

    pub fn entries(self) -> impl Iterator<Item = Descriptor> + 'a {
        let mut index = 0;
        std::iter::from_fn(move || {
            let entry = self.get(index)?;
            index += 1;
            Some(entry)
        })
    }
}
