//! Stand-in for the crate `futures`: the part that the staged files name. No call that is compared starts a sync, so
//! nothing here is run.

pub mod future {
    use std::future::Future;
    use std::pin::Pin;
    use std::sync::{Arc, Mutex};
    use std::task::{Context, Poll};

    pub type BoxFuture<'a, T> = Pin<Box<dyn Future<Output = T> + Send + 'a>>;

    pub trait FutureExt: Future + Sized {
        fn boxed<'a>(self) -> BoxFuture<'a, Self::Output>
        where
            Self: Send + 'a,
        {
            Box::pin(self)
        }

        fn shared(self) -> Shared<Self>
        where
            Self::Output: Clone,
        {
            Shared(Arc::new(Mutex::new(Progress::Waits(Box::pin(self)))))
        }
    }

    impl<F: Future> FutureExt for F {}

    enum Progress<F: Future> {
        Waits(Pin<Box<F>>),
        Done(F::Output),
    }

    /// A future whose output each clone gives.
    pub struct Shared<F: Future>(Arc<Mutex<Progress<F>>>);

    impl<F: Future> Clone for Shared<F> {
        fn clone(&self) -> Self {
            Self(self.0.clone())
        }
    }

    impl<F: Future> Future for Shared<F>
    where
        F::Output: Clone,
    {
        type Output = F::Output;

        fn poll(self: Pin<&mut Self>, cx: &mut Context<'_>) -> Poll<F::Output> {
            let mut progress = self.0.lock().unwrap();
            if let Progress::Waits(future) = &mut *progress {
                match future.as_mut().poll(cx) {
                    Poll::Pending => return Poll::Pending,
                    Poll::Ready(output) => *progress = Progress::Done(output),
                }
            }
            match &*progress {
                Progress::Done(output) => Poll::Ready(output.clone()),
                Progress::Waits(_) => unreachable!(),
            }
        }
    }
}
