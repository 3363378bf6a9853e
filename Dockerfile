# mvsjob in a container. Make the package first, then the image:
#
#     ./x package out
#     docker build --tag mvsjob .
#     docker run -i --rm mvsjob < my.job
FROM debian:stable-slim
LABEL org.opencontainers.image.title="mvsjob" \
      org.opencontainers.image.description="Simulator of the virtual storage services of z/OS" \
      org.opencontainers.image.licenses="MIT OR Apache-2.0"
COPY out/mvsjob_*_amd64.deb /tmp/
RUN dpkg --install /tmp/mvsjob_*_amd64.deb \
 && rm /tmp/mvsjob_*_amd64.deb \
 && useradd --system --no-create-home --shell /usr/sbin/nologin mvsjob
USER mvsjob
WORKDIR /work
ENTRYPOINT ["/usr/bin/mvsjob"]
