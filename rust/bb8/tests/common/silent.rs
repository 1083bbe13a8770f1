/// A server that does not answer, from one of these calls on. Examples include this file.
#[derive(Debug, PartialEq)]
enum Silent {
    Connect,
    Check,
}

impl bb8::ManageConnection for Silent {
    type Connection = ();
    type Error = std::convert::Infallible;

    async fn connect(&self) -> Result<(), Self::Error> {
        if *self == Silent::Connect {
            std::future::pending::<()>().await;
        }
        Ok(())
    }

    async fn is_valid(&self, _: &mut ()) -> Result<(), Self::Error> {
        std::future::pending().await
    }

    fn has_broken(&self, _: &mut ()) -> bool {
        false
    }
}
