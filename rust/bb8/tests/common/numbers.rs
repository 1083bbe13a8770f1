/// Opens connections that are plain numbers: the first is 0. Examples and tests include this file.
#[derive(Debug, Default)]
struct Numbers(std::sync::atomic::AtomicU32);

impl bb8::ManageConnection for Numbers {
    type Connection = u32;
    type Error = std::convert::Infallible;

    async fn connect(&self) -> Result<u32, Self::Error> {
        Ok(self.0.fetch_add(1, std::sync::atomic::Ordering::SeqCst))
    }

    async fn is_valid(&self, _: &mut u32) -> Result<(), Self::Error> {
        Ok(())
    }

    fn has_broken(&self, _: &mut u32) -> bool {
        false
    }
}
