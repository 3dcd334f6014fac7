FROM debian:bookworm-slim
ADD out/zorikham-*.tgz /opt
RUN ln -s /opt/package/bin/shake /usr/local/bin/shake
USER nobody
ENTRYPOINT ["shake"]
